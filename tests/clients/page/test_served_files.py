"""The scripts and styles of the page, which a browser caches from start to start."""

import re
import socket

import served_page
import test_page_in_browser
import trial
from abc2midi_live_clients.page import served_files

STRANGERS = 32  # connections of strangers that the server keeps
UNREAD = """
const files = performance.getEntriesByType("resource").filter(({ name }) => new URL(name).pathname.startsWith("/files/"));
return [files.length, files.filter(({ transferSize }) => transferSize > 0).map(({ name }) => name)];
"""  # how many cached files the page has, and those that were sent again


class Cached(served_page.Page):
    """What the server answers at the address of the cached files."""

    def links(self) -> list[str]:
        """The addresses of the scripts and styles of the page."""
        return re.findall(r'(?:href|src)="(/[^"]*)"', self.request("")[2].decode())

    def folder_of_files(self) -> str:
        """The address of the folder, with its slash."""
        (folder,) = {link[: link.index("/", len("/files/"))] for link in self.links()}
        return f"{folder}/"

    def test_a_browser_may_cache_scripts_and_styles_alone(self) -> None:
        names = [link.removeprefix(self.folder_of_files()) for link in self.links()]
        self.assertEqual([name for name in names if name.endswith(".js")], ["shell/reload_on_failure.js", "shell/served_page.js"])
        self.assertEqual(names[1:-1], re.findall(r'"([a-z_/]+\.css)"', (served_files.FILES / "index.html").read_text()))
        for name in (*names, "shell/application.js", "editor/search_worker.js"):
            status, headers, data = self.request("", path=self.folder_of_files() + name)
            self.assertEqual((status, data), (200, (served_files.FILES / name).read_bytes()), name)
            self.assertEqual(headers["Cache-Control"], "private, max-age=31536000, immutable")
            self.assertEqual((headers["X-Content-Type-Options"], headers["Referrer-Policy"]), ("nosniff", "no-referrer"))
            self.assertIn("default-src 'none'", headers["Content-Security-Policy"])
        for name in ("", "shell/application.js", "book", "completion.json"):
            self.assertEqual(self.request(name)[1]["Cache-Control"], "no-store", name)
        self.assertNotIn(self.token, self.folder_of_files())
        self.finish()

    def test_nothing_else_is_there(self) -> None:
        folder = self.folder_of_files()
        for name in ("", "book", "state", "text", "midi/1", "midi.zip", "index.html", "../starting.py", "%2e%2e/starting.py", "shell/application.js/", "shell/application.js?", "/shell/application.js", "shell", "shell/", "shell/../shell/application.js", "static/static_page.js", "static/service_worker.js"):
            self.assertEqual(self.request("", path=folder + name)[0], 403, name)
        other = folder[:-2] + ("0" if folder[-2] != "0" else "1") + "/"
        for path in (other, folder[:-2] + "/", folder.upper(), "/files/", "/", f"/{self.token}{folder}x/"):
            self.assertIn(self.request("", path=f"{path}shell/application.js")[0], (403, 404), path)
        self.assertEqual(self.request("", {}, path=f"{folder}shell/application.js")[0], 403)
        for header in ({"Host": "evil.example"}, {"Host": f"127.0.0.1:{self.port + 1}"}, {"Origin": "http://evil.example"}, {"Origin": "null"}):
            self.assertEqual(self.request("", headers=header, path=f"{folder}shell/application.js")[0], 403, header)
        self.finish()

    def test_from_start_to_start(self) -> None:
        """The address is the book's: that of another one, and of another key, is another one."""
        folder = self.folder_of_files()
        self.finish()
        self.start(str(self.path))
        self.assertEqual(self.folder_of_files(), folder)
        self.kept_key().unlink()
        self.finish()
        self.start(str(self.path))
        self.assertNotEqual(self.folder_of_files(), folder)
        self.assertEqual(self.request("", path=f"{folder}shell/application.js")[0], 403)
        self.finish()

    def test_other_files(self) -> None:
        """Another byte, type, name or key makes another address."""
        key, file = "00" * 32, (b"let a;", "text/javascript")
        tried: list[tuple[str, dict[str, served_files.File]]] = [
            (key, {"a.js": file}),
            ("01" + key[2:], {"a.js": file}),
            (key, {"b.js": file}),
            (key, {"a.js": (b"let b;", file[1])}),
            (key, {"a.js": (file[0], "text/plain")}),
            (key, {"a.js": file, "b.js": file}),
        ]
        self.assertEqual(len({served_files.cached_folder(*each) for each in tried}), len(tried))

    def test_a_connection_for_files_stays(self) -> None:
        """More strangers than the server keeps do not end it."""
        request = f"GET {self.folder_of_files()}shell/reload_on_failure.js HTTP/1.1\r\nHost: 127.0.0.1:{self.port}\r\n\r\n".encode()
        with socket.create_connection(("127.0.0.1", self.port), trial.SECONDS) as connection:
            stream = connection.makefile("rb")
            for _ in range(2):
                connection.sendall(request)
                self.assertEqual(stream.readline(), b"HTTP/1.1 200 OK\r\n")
                length = next(int(line.split()[1]) for line in stream if line.startswith(b"Content-Length:"))
                while stream.readline() != b"\r\n":
                    pass
                self.assertEqual(len(stream.read(length)), length)
                for _ in range(STRANGERS + 1):
                    self.addCleanup(socket.create_connection(("127.0.0.1", self.port), trial.SECONDS).close)
                self.ask("state")
            stream.close()
        self.finish()


class CachedInBrowser(test_page_in_browser.Browser):
    """A browser that has the files."""

    def test_it_asks_for_none_again(self) -> None:
        self.kill()
        self.start(str(self.path), port=str(self.port))
        self.load()
        count, sent = self.run_script(UNREAD)
        self.assertGreater(count, 50)
        self.assertEqual(sent, [])
