"""What the suites share: a desk that serves, a room with nginx, a model of the desk, images and museums."""
