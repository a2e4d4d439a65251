"""The conversation with the language server: what ends it, and what doesn't."""

import json
import queue
import time
import unittest
import unittest.mock

from scadserve.editor import framing
from tests.editor import PATIENCE, Case, about, framed

INITIALIZE = {"id": 1, "method": "initialize", "params": {"capabilities": {}}}


class Conversation(Case):
    def status(self):
        return self.statuses.get(timeout=PATIENCE)

    def test_it_begins_and_ends(self):
        editor = self.editor()
        found = editor.start()
        self.assertEqual(found["capabilities"]["positionEncoding"], "utf-16")
        self.assertEqual(found["serverInfo"]["name"], "scadls")
        self.assertIsNone(editor.ask("shutdown"))
        self.assertEqual(editor.ask("textDocument/hover", {})["code"], framing.INVALID_REQUEST)
        editor.notify("exit")
        self.assertEqual(self.status(), 0)

    def test_an_end_without_shutdown(self):
        for end in (lambda it: it.notify("exit"), lambda it: it.close()):
            editor = self.editor()
            editor.start()
            end(editor)
            self.assertEqual(self.status(), 1)

    def test_an_end_behind_shutdown(self):
        editor = self.editor()
        editor.start()
        editor.ask("shutdown")
        editor.close()
        self.assertEqual(self.status(), 0)

    def test_initialize_comes_first_and_once(self):
        editor = self.editor()
        self.assertEqual(editor.ask("textDocument/hover", {})["code"], framing.NOT_INITIALIZED)
        self.opened(editor, "early.scad", "x = 1;")
        self.assertEqual(editor.ask("initialize", None)["code"], framing.INVALID_PARAMS)
        editor.start()
        self.assertEqual(editor.ask("initialize", {})["code"], framing.INVALID_REQUEST)
        # (what was opened before is not open)
        asked = {"textDocument": {"uri": self.uri("early.scad")}}
        self.assertEqual(editor.ask("textDocument/documentSymbol", asked)["code"], framing.INVALID_PARAMS)

    def test_bad_messages_end_nothing(self):
        editor = self.editor()
        editor.start()
        deep = b"[" * 100_000
        for data, code in (
            (framed(b"{"), framing.PARSE_ERROR),
            (framed(b"\xff\xfe"), framing.PARSE_ERROR),
            (framed(b""), framing.PARSE_ERROR),
            (framed(deep), framing.PARSE_ERROR),
            (b"X-Header: 1\r\n\r\n", framing.PARSE_ERROR),
            (b"Content-Length: -5\r\n\r\n", framing.PARSE_ERROR),
            (b"\r\n", framing.PARSE_ERROR),
            (framed(b"[]"), framing.INVALID_REQUEST),
            (framed(b"7"), framing.INVALID_REQUEST),
            (framed(b"null"), framing.INVALID_REQUEST),
            (framed(b"{}"), framing.INVALID_REQUEST),
            (framed(b'{"id": 3}'), framing.INVALID_REQUEST),
            (framed(b'{"id": 3, "method": 4}'), framing.INVALID_REQUEST),
            (framed(b'{"id": [], "method": "shutdown"}'), framing.INVALID_REQUEST),
            (framed(b'{"id": true, "method": "shutdown"}'), framing.INVALID_REQUEST),
        ):
            with self.subTest(data[:40]):
                editor.write(data)
                self.assertEqual(editor.answer(None)["error"]["code"], code)
        self.assertEqual(editor.ask("no/such/method")["code"], framing.NO_METHOD)

    def test_a_message_that_is_too_large_is_read_over(self):
        editor = self.editor()
        editor.start()
        with unittest.mock.patch.object(framing, "MOST_BYTES", 1_000):
            editor.write(framed(b'{"id": 9, "method": "shutdown", "params": "%b"}' % (b"x" * 3_000_000)))
            self.assertEqual(editor.answer(None)["error"]["code"], framing.INVALID_REQUEST)
        self.assertIsNone(editor.ask("shutdown"))

    def test_bad_parameters_end_nothing(self):
        editor, uri = self.text("x = 1;\n")
        for method in ("hover", "completion", "definition", "references", "documentSymbol", "prepareRename", "rename"):
            for params in (
                None, [], {}, {"textDocument": 1}, {"textDocument": {"uri": 1}}, {"textDocument": {"uri": "file:///no"}}
            ):
                with self.subTest(method, params=params):
                    self.assertEqual(editor.ask(f"textDocument/{method}", params)["code"], framing.INVALID_PARAMS)
        for position in (None, {"line": -1, "character": 0}, {"line": "1"}, {"line": 0, "character": 1e9}):
            asked = {"textDocument": {"uri": uri}, "position": position, "newName": "y"}
            self.assertEqual(editor.ask("textDocument/hover", asked)["code"], framing.INVALID_PARAMS)
        with unittest.mock.patch("scadserve.editor.serving.say") as said:
            for method in ("didOpen", "didChange", "didClose", "didSave"):
                for params in (None, 1, {}):
                    editor.notify(f"textDocument/{method}", params)
            self.change(editor, uri, 2, {"text": 1})
            editor.notify("no/such/notification", [])
            editor.notify("$/cancelRequest", {"id": []})
            self.assertEqual(editor.ask("textDocument/hover", about(uri, "x = 1;", "(x)"))["range"]["end"]["character"], 1)
        self.assertEqual(said.call_count, 13)

    def test_what_is_cancelled_before_its_turn_is_not_answered(self):
        editor, uri = self.text("".join(f"x{number} = {number};\n" for number in range(3_000)))
        asked = {"textDocument": {"uri": uri}, "position": {"line": 2_999, "character": 0}}
        data = b""
        for number in range(100, 104):
            data += framed(json.dumps({"id": number, "method": "textDocument/completion", "params": asked}).encode())
        data += framed(b'{"id": "late", "method": "textDocument/hover", "params": %b}' % json.dumps(asked).encode())
        editor.write(data + framed(b'{"method": "$/cancelRequest", "params": {"id": "late"}}'))
        self.assertEqual(editor.answer("late")["error"]["code"], framing.CANCELLED)
        self.assertIn("result", editor.answer(100))
        # (the same id may be asked anew)
        editor.write(framed(b'{"id": "late", "method": "textDocument/hover", "params": %b}' % json.dumps(asked).encode()))
        self.assertIn("result", editor.answer("late"))

    def test_messages_in_pieces(self):
        editor = self.editor()
        data = b"content-length: 5\r\nContent-Type: application/vscode-jsonrpc; charset=utf-8\r\n\r\nnull " + framed(
            json.dumps({"jsonrpc": "2.0", **INITIALIZE}).encode()
        )
        for at in range(0, len(data), 7):
            editor.write(data[at : at + 7])
            time.sleep(0.001)
        self.assertEqual(editor.answer(1)["result"]["serverInfo"]["name"], "scadls")

    def test_a_response_of_the_editor_is_not_answered(self):
        editor = self.editor()
        editor.start()
        editor.send({"id": 5, "result": None})
        editor.send({"id": 6, "error": {"code": 1, "message": "no"}})
        editor.ask("shutdown")
        with self.assertRaises(queue.Empty):
            editor.wait(lambda it: it.get("id") in (5, 6), 0.1)

    def test_an_editor_that_can_watch_files_is_asked_to(self):
        editor = self.editor()
        editor.start({"workspace": {"didChangeWatchedFiles": {"dynamicRegistration": True}}})
        [asked] = editor.wait(lambda it: it.get("method") == "client/registerCapability")["params"]["registrations"]
        self.assertEqual(asked["registerOptions"], {"watchers": [{"globPattern": "**/*.scad"}]})
        editor.send({"id": "watch", "result": None})
        self.assertIsNone(editor.ask("shutdown"))


class Program(Case):
    def test_the_program_itself(self):
        editor, process = self.program("--stdio", "--seconds", "5")
        editor.start()
        uri = self.opened(editor, "part.scad", "cube(2.5);\n")
        [fault] = editor.diagnostics(uri)
        self.assertEqual((fault["code"], fault["range"]["start"]), ("NotWhole", {"line": 0, "character": 5}))
        editor.ask("shutdown")
        editor.notify("exit")
        self.assertEqual(process.wait(PATIENCE), 0)
        self.assertEqual(process.stderr.read(), b"")

    def test_wrong_words(self):
        for words in (["--seconds", "0"], ["--seconds", "x"], ["--seconds", "nan"], ["--such"], ["part.scad"]):
            _, process = self.program(*words)
            self.assertEqual(process.wait(PATIENCE), 2, words)
            self.assertTrue(process.stderr.read().startswith(b"scadls: "))


if __name__ == "__main__":
    unittest.main()
