// The signs of the screens, each of eight rows of eight dots, drawn for these pages: those of ASCII from 20 to 7E hex,
// then £ ↑ ←, then those of the 1541's machines from 60 to 7F hex and from A0 to BF hex.
import { folded } from "./names.js";

const ROWS = atob(
  "AAAAAAAAAAAYGBgYGAAYADY2JAAAAAAAADZ/NjZ/NgAYPmA8BnwYAGFjBgwYM0MAOGx4MH5sPgAYGDAAAAAAAAwYMDAwGAwAMBgMDAwYMAAAGH" +
    "48fhgAAAAYGH4YGAAAAAAAAAAYGDAAAAB+AAAAAAAAAAAAGBgABgYMGDBgYAA8Zm5+dmY8ABg4GBgYGH4APGYGDBgwfgB+DBgMBmY8AAwcPGx+" +
    "DAwAfmB8BgZmPAAcMGB8ZmY8AH4GDBgwMDAAPGZmPGZmPAA8ZmY+Bgw4AAAYGAAYGAAAABgYABgYMAAMGDBgMBgMAAAAfgB+AAAAMBgMBgwYMA" +
    "A8ZgYMGAAYAD5jb2tvYD4APGZmfmZmZgB8ZmZ8ZmZ8AD5gYGBgYD4AfGZmZmZmfAB+YGB8YGB+AH5gYHxgYGAAPmBgbmZmPgBmZmZ+ZmZmAH4Y" +
    "GBgYGH4ABgYGBgZmPABmZmx4bGZmAGBgYGBgYH4AY3dra2NjYwBmdnZ+bm5mADxmZmZmZjwAfGZmZnxgYAA8ZmZmZmw+AHxmZmZ8bGYAPmBgPA" +
    "YGfAB+GBgYGBgYAGZmZmZmZjwAZmZmZjw8GABjY2Nra2s2AGY8PBg8PGYAZmY8PBgYGAB+Bgw8MGB+ADwwMDAwMDwAYGAwGAwGBgA8DAwMDAw8" +
    "ABg8ZgAAAAAAAAAAAAAAAP8wGAAAAAAAAAAAPAY+Zj4AYGB8ZmZmfAAAAD5gYGA+AAYGPmZmZj4AAAA8Zn5gPgAcMDB8MDAwAAAAPmZmPgZ8YG" +
    "B8ZmZmZgAYADgYGBg8AAwAHAwMDAw4YGBmbHhsZgA4GBgYGBg8AAAAdmtra2MAAAB8ZmZmZgAAADxmZmY8AAAAfGZmfGBgAAA+ZmY+BgYAAHxw" +
    "YGBgAAAAPmA8BnwAMDB8MDAwHAAAAGZmZmY+AAAAZmY8PBgAAABja2trNgAAAGY8GDxmAAAAZmZmPgZ8AAB+DBgwfgAcGBgwGBgcABgYGBgYGB" +
    "gYOBgYDBgYOAAAADB+DAAAABw2MHgwMH4AGDx+GBgYGAAAGDB+MBgAAAAAAP//AAAAGDx+//9aGDwYGBgYGBgYGAAAAP//AAAAAAD//wAAAAAA" +
    "//8AAAAAAAAAAAAA//8AMDAwMDAwMDAGBgYGBgYGBgAAAODwGBgYGBgMBwMAAAAYGDDgwAAAAMDAwMDAwP//gMBgMBgMBgMDBgwYMGDAgP//wM" +
    "DAwMDA//8DAwMDAwMAPH5+fn48AAAAAAAAAP//AGb//348GABgYGBgYGBgYAAAAAcPGBgYgUIkGBgkQoEAPGZCQmY8ABg8GGb/Zhg8AwMDAwMD" +
    "AwMYPH7/fjwYABgYGP//GBgYoFCgUKBQoFAYGBgYGBgYGAB/pCQkZgAA/38/Hw8HAwEAAAAAAAAAAPDw8PDw8PDwAAAAAP//////AAAAAAAAAA" +
    "AAAAAAAAD/gICAgICAgICqVapVqlWqVQEBAQEBAQEBAAAAAKpVqlX//vz48ODAgAMDAwMDAwMDGBgYHx8YGBgAAAAADw8PDxgYGB8fAAAAAAAA" +
    "+PgYGBgAAAAAAAD//wAAAB8fGBgYGBgY//8AAAAAAAD//xgYGBgYGPj4GBgYwMDAwMDAwMDg4ODg4ODg4AcHBwcHBwcH//8AAAAAAAD///8AAA" +
    "AAAAAAAAAA////AwMDAwMD//8AAAAA8PDw8A8PDw8AAAAAGBgY+PgAAADw8PDwAAAAAPDw8PAPDw8P",
);
const [POUND, UP, LEFT, FIRST, SECOND] = [95, 96, 97, 98, 130];
const PLAIN = { 0x5c: POUND, 0x5e: UP, 0x5f: LEFT };

// The eight rows of a sign by its place, each a byte whose highest bit is the dot at the left.
export const SIGNS = Uint8Array.from(ROWS, (sign) => sign.charCodeAt(0));

// The place of a sign of ASCII; any other code shows as a blank.
export const asciiPlace = (code) => (code >= 0x20 && code <= 0x7e ? code - 0x20 : 0);

// The place of the sign of a code of the 1541's machines, in the set with small letters or in the other.
export function petsciiPlace(code, isSmall) {
  const at = folded(code);
  if (at < 0x20 || (at >= 0x80 && at < 0xa0)) return 0;
  if (isSmall && at >= 0x41 && at <= 0x5a) return asciiPlace(at + 0x20);
  if (isSmall && at >= 0x61 && at <= 0x7a) return asciiPlace(at - 0x20);
  if (at >= 0xa0) return SECOND + at - 0xa0;
  return at >= 0x60 ? FIRST + at - 0x60 : (PLAIN[at] ?? asciiPlace(at));
}
