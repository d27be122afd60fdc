"""Chromium without a window: pages as they stand once they are open, and pictures of them."""
import os
import shutil
import signal
import subprocess

NAMES = ["chromium", "chromium-browser", "google-chrome", "chrome"]


def find():
    """Chromium, by whichever name it is there, or None."""
    return next((found for found in map(shutil.which, NAMES) if found), None)


def run(folder, size, *words, seconds=120):
    """What it writes, with all that it keeps in a folder of its own. Nothing where it does not start, or does not end in time."""
    front = [find(), "--headless", "--no-sandbox", "--disable-gpu", "--disable-dev-shm-usage", "--hide-scrollbars"]
    front += [f"--user-data-dir={folder}/profile", f"--window-size={size}"]
    try:
        started = subprocess.Popen(
            [*front, *map(str, words)], stdin=subprocess.DEVNULL, stdout=subprocess.PIPE, stderr=subprocess.DEVNULL, start_new_session=True
        )
    except OSError:
        return b""
    try:
        return started.communicate(timeout=seconds)[0]
    except subprocess.TimeoutExpired:
        return b""
    finally:
        # it starts others, which are not to outlive it
        try:
            os.killpg(started.pid, signal.SIGKILL)
        except ProcessLookupError:
            pass
        started.communicate()


def picture(page, folder, size, path):
    """Whether a picture of the page was written to the path."""
    run(folder, size, f"--screenshot={path}", page.as_uri())
    return path.is_file()


def opened(page, folder, size, seconds=120):
    """The page as its own scripts left it."""
    return run(folder, size, "--dump-dom", page.as_uri(), seconds=seconds).decode(errors="replace")
