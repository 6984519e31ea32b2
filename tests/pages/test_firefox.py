"""The main ways through both pages in Firefox, to which Selenium speaks by Marionette, over the stand-in."""

import json
import os
import signal
import socket
import subprocess

import pytest
from selenium import webdriver
from selenium.common.exceptions import WebDriverException
from selenium.webdriver.remote.command import Command
from support import museums
from support.browser import LIMIT
from support.server import HOST, free_port, wait_for
from test_accessibility import CONTRAST, REFUSED

pytestmark = pytest.mark.xdist_group("firefox")
# How Marionette calls the commands of Selenium.
COMMANDS = {Command.NEW_SESSION: "NewSession", Command.GET: "Navigate", Command.FIND_ELEMENTS: "FindElements",
    Command.CLICK_ELEMENT: "ElementClick", Command.SEND_KEYS_TO_ELEMENT: "ElementSendKeys",
    Command.GET_ELEMENT_PROPERTY: "GetElementProperty", Command.W3C_EXECUTE_SCRIPT: "ExecuteScript",
    Command.W3C_EXECUTE_SCRIPT_ASYNC: "ExecuteAsyncScript", Command.REFRESH: "Refresh"}
# It saves files without a word, and asks nobody else for anything.
OFF = ["browser.download.always_ask_before_handling_new_types", "datareporting.policy.dataSubmissionEnabled",
       "app.update.enabled", "extensions.systemAddon.update.enabled", "network.captive-portal-service.enabled"]
SETTINGS = {"browser.download.folderList": 2, "browser.startup.page": 0, "services.settings.server": "data:,"}

class Marionette:
    """Commands and replies of Marionette: texts of JSON, each behind its length."""

    def __init__(self, port):
        self.stream = socket.create_connection((HOST, port), 4 * LIMIT).makefile("rwb")
        self.taken()

    def taken(self):
        length = b""
        while not length.endswith(b":"):
            length += self.stream.read(1) or pytest.fail("Firefox has ended")
        return json.loads(self.stream.read(int(length[:-1])))

    def execute(self, command, values):
        if command == Command.GET_LOG:
            return {"value": []}
        text = json.dumps([0, 1, f"WebDriver:{COMMANDS[command]}", {} if command == Command.NEW_SESSION else values])
        self.stream.write(f"{len(text)}:{text}".encode())
        self.stream.flush()
        _, _, fault, value = self.taken()
        if fault:
            raise WebDriverException(fault["message"] or fault["error"])
        return {"value": value["value"] if isinstance(value, dict) and "value" in value else value}

@pytest.fixture(scope="module")
def driver(tmp_path_factory):
    folder, port = tmp_path_factory.mktemp("firefox"), free_port()
    settings = {**SETTINGS, "marionette.port": port, "browser.download.dir": str(folder), **dict.fromkeys(OFF, False)}
    (folder / "user.js").write_text("\n".join(f"user_pref({json.dumps(one)[1:-1]});" for one in settings.items()))
    words = ["firefox-esr", "--headless", "--marionette", "--no-remote", "--profile", folder]
    no = dict.fromkeys(("stdin", "stdout", "stderr"), subprocess.DEVNULL)
    process = subprocess.Popen(words, env={**os.environ, "HOME": str(folder)}, start_new_session=True, **no)
    try:
        wait_for(port, process, 2 * LIMIT)
        begun = webdriver.Remote(Marionette(port), options=webdriver.FirefoxOptions())
        begun.downloads = folder
        yield begun
    finally:
        os.killpg(process.pid, signal.SIGKILL)
        process.wait()

def test_reader_finds_reads_and_saves_a_file(museum, reader):
    museums.harmful_disk(museum, 1066, 9)
    assert reader.load()["disks"][-1] == "Disk 1066"
    assert reader.go("1066")["rows"][2][0].startswith("<IMG") and reader.harmed() == [None, 0]
    width = "return document.querySelector('figure canvas').width"
    assert reader.script(CONTRAST) == [] and reader.script(width) > 1000
    assert reader.find("welcome")["matches"] == ["WELCOME.TXT"] and reader.script(CONTRAST) == []
    assert reader.go("1001/0") and reader.push("Bytes") and reader.text("pre").startswith("000000  ")
    reader.named("link", "Download").click()
    assert len(reader.saved("WELCOME.TXT")) == 896 and reader.script(CONTRAST) == []
    assert reader.driver.execute_async_script(REFUSED) == ["TypeError", "TypeError", "connect-src"]

def test_staff_rehearses_and_puts_a_takedown(staff):
    staff.go("takedowns")
    assert "GUIDE (disk 1002, slot 2)" in staff.take_down("1002", "", "2", "public", "room")["sure"]
    assert staff.answer(True)["result"][0] == "Put: takedown 10 of disk 1002."
    assert staff.door.effects(1002)["public"] == ["read", "read", "deny"]
