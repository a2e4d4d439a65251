"""The language server in Neovim's own client, without a screen, by the lines of docs/EDITORS.md."""

import json
import os
import re
import shlex
import shutil
import subprocess
import unittest

from tests.calls import TOP, Calls
from tests.editor import PATIENCE, SCADLS

TEXT = """use <lib.scad>
// \u00e9\u00e9
wide = 30; /* \u00e9 */ cube([wide, 2.5, of_lib(1)]);
module plate(size) { cube([size, wide, 1]); }
plate(2);
"""
LIB = "function of_lib(x) = x;\n"
# Each step has its result in a table, which is written as JSON at the end.
SCRIPT = """
local found = {}
local function wait(what, fits)
  found[what] = vim.wait(PATIENCE, fits, 20)
end
local function at(line, column)
  vim.api.nvim_win_set_cursor(0, {line, column})
  return vim.lsp.util.make_position_params(0, "utf-16")
end
local function ask(method, params)
  local answers = vim.lsp.buf_request_sync(0, method, params, PATIENCE)
  for _, it in pairs(answers or {}) do return it.result or it.err or it.error end
end
local function told()
  return vim.tbl_map(function(it) return {it.lnum, it.col, it.end_col, it.code} end, vim.diagnostic.get(0))
end
local ok, failed = pcall(function()
  vim.cmd("luafile init.lua")
  vim.cmd("edit part.scad")
  wait("fault", function() return #vim.diagnostic.get(0) == 1 end)
  found.told = told()
  found.hover = ask("textDocument/hover", at(5, 1)).contents.value
  found.words = vim.tbl_map(function(it) return it.label end, ask("textDocument/completion", at(5, 6)).items)
  found.outline = vim.tbl_map(function(it) return it.name end, ask("textDocument/documentSymbol", at(1, 0)))
  at(3, vim.fn.getline(3):find("of_lib") - 1)
  found.under = vim.fn.expand("<cword>")
  vim.lsp.buf.definition()
  wait("lib", function() return vim.fn.expand("%:t") == "lib.scad" end)
  found.cursor = vim.api.nvim_win_get_cursor(0)
  vim.cmd("buffer part.scad")
  at(4, 34)
  vim.lsp.buf.rename("broad")
  wait("renamed", function() return vim.api.nvim_buf_get_lines(0, 2, 3, true)[1]:find("broad") ~= nil end)
  found.lines = vim.api.nvim_buf_get_lines(0, 0, -1, true)
  at(5, 1)
  found.refused = ask("textDocument/rename", vim.tbl_extend("force", at(4, 22), {newName = "x"})).message
  local line = found.lines[3]
  local start = line:find("2.5", 1, true) - 1
  vim.api.nvim_buf_set_text(0, 2, start, 2, start + 3, {"25"})
  wait("mended", function() return #vim.diagnostic.get(0) == 0 end)
  vim.lsp.stop_client(Scadls)
  wait("stopped", function() return vim.lsp.client_is_stopped(Scadls) end)
end)
found.failed = not ok and failed or nil
local out = io.open("found.json", "w")
out:write(vim.fn.json_encode(found))
out:close()
vim.cmd("qall!")
"""


@unittest.skipUnless(shutil.which("nvim"), "nvim is not installed")
class Neovim(Calls):
    def test_what_its_client_shows(self):
        self.write("part.scad", TEXT)
        self.write("lib.scad", LIB)
        with open(os.path.join(TOP, "docs", "EDITORS.md"), encoding="utf-8") as it:
            [lines] = re.findall(r"```lua\n(.*?)```", it.read(), re.DOTALL)
        self.write("init.lua", lines)
        os.mkdir(self.path("bin"))
        self.write("bin/scadls", f"#!/bin/sh\nexec {shlex.join(SCADLS)} \"$@\"\n")
        os.chmod(self.path("bin/scadls"), 0o755)
        self.write("steps.lua", SCRIPT.replace("PATIENCE", str(1_000 * PATIENCE)))
        path = self.path("bin") + os.pathsep + self.environment["PATH"]
        environment = {**self.environment, "PATH": path, "HOME": self.folder, "XDG_STATE_HOME": self.folder}
        words = ["nvim", "--headless", "--clean", "-n", "-c", "luafile steps.lua"]
        done = subprocess.run(words, cwd=self.folder, env=environment, capture_output=True, timeout=4 * PATIENCE, check=False)
        self.assertEqual(done.returncode, 0, done.stderr)
        found = json.loads(self.read("found.json"))
        self.assertNotIn("failed", found)
        for step in ("fault", "lib", "renamed", "mended", "stopped"):
            self.assertTrue(found[step], (step, done.stderr))
        # (columns count bytes, and a letter of two bytes stands before)
        self.assertEqual(found["told"], [[2, 32, 35, "NotWhole"]])
        self.assertEqual(found["hover"], "```openscad\nmodule plate(size)\n```\n\nmodule, line 4")
        self.assertEqual(found["words"][0], "size")
        self.assertIn("of_lib", found["words"])
        self.assertEqual(found["outline"], ["wide", "plate"])
        self.assertEqual((found["under"], found["cursor"]), ("of_lib", [1, 9]))
        self.assertEqual(found["lines"], TEXT.replace("wide", "broad").splitlines())
        self.assertEqual(found["refused"], "cube is built in")


if __name__ == "__main__":
    unittest.main()
