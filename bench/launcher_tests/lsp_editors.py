"""The language server in Neovim and Emacs, without a screen, set up as docs/EDITORS.md says; if these editors are installed."""
import os
import re
import shutil
import subprocess
import tempfile

from .common import LAUNCHER, compare, document, text_of
from .lsp_cell import write_cell

# Each opens main.mod, writes z10 for fine, waits for the error, and writes what it saw into the file `result`.
NEOVIM = """
vim.cmd('edit main.mod')
vim.wait(PATIENCE, function() return next(vim.lsp.buf_get_clients(0)) ~= nil end, 50)
local client = next(vim.lsp.buf_get_clients(0))
vim.api.nvim_buf_set_lines(0, 7, 8, false, { '    MoveAbsJ home, v100, z10, tool0;' })
vim.wait(PATIENCE, function() return #vim.diagnostic.get(0) > 0 end, 50)
local lines = {}
for _, it in ipairs(vim.diagnostic.get(0)) do table.insert(lines, it.lnum .. ' ' .. it.col .. ' ' .. it.end_col .. ' ' .. it.code) end
local ask = function(method)
  local params = { textDocument = vim.lsp.util.make_text_document_params(), position = { line = 9, character = 5 } }
  return vim.lsp.buf_request_sync(0, method, params, PATIENCE)[client].result
end
table.insert(lines, (ask('textDocument/definition')[1].uri:gsub('.*/', '')))
table.insert(lines, (ask('textDocument/hover').contents.value:gsub('\\n.*', '')))
local names = vim.tbl_map(function(it) return it.label end, ask('textDocument/completion'))
table.insert(lines, tostring(vim.tbl_contains(names, 'fetch')))
vim.fn.writefile(lines, 'result')
vim.cmd('qall!')
"""
EMACS = """
(setq eglot-sync-connect PATIENCE)
(find-file "main.mod")
(apply #'eglot (eglot--guess-contact))
(search-forward "fine")
(replace-match "z10")
(eglot--signal-textDocument/didChange)
(with-timeout (PATIENCE)
  (while (not (flymake-diagnostics))
    (accept-process-output nil 0.1)))
(let ((found (mapconcat
              (lambda (it)
                (format "%d %s %s" (line-number-at-pos (flymake-diagnostic-beg it))
                        (buffer-substring (flymake-diagnostic-beg it) (flymake-diagnostic-end it))
                        ; What stands before it names the source and the rule.
                        (car (last (split-string (car (split-string (flymake-diagnostic-text it) "\\n")) "]: ")))))
              (flymake-diagnostics) ", ")))
  (with-temp-file "result" (insert found "\\n")))
(set-buffer-modified-p nil)
"""


def try_neovim():
    wanted = "7 25 28 CornerZone\ntools.mod\n```rapid\ntrue\n"
    words = ["nvim", "--headless", "-u", "NONE", "-i", "NONE", "-n", "-c", "luafile set_up", "-c", "luafile try"]
    try_editor("Neovim", words, set_up("lua"), NEOVIM.replace("PATIENCE", "60000"), wanted)


def try_emacs():
    wanted = "8 z10 CornerZone: a zone other than fine\n"
    words = ["emacs", "-q", "--batch", "--eval", "(package-initialize)", "-l", "set_up", "-l", "try"]
    try_editor("Emacs", words, set_up("elisp"), EMACS.replace("PATIENCE", "60"), wanted)


def set_up(language):
    """What docs/EDITORS.md has for an editor's own file."""
    return re.search(rf"^```{language}\n(.*?)^```$", document("EDITORS"), re.M | re.S)[1]


def try_editor(name, words, own, asked, wanted):
    if not shutil.which(words[0]):
        print(f"{name} is not here: it is not tried")
        return
    with tempfile.TemporaryDirectory() as folder:
        home = write_cell(folder)
        own = own.replace("/path/to/rapid_cell/rapid_cell", str(LAUNCHER)).replace("/path/to/cell", str(home))
        (home / "set_up").write_text(own, encoding="utf-8")
        (home / "try").write_text(asked)
        how = {**os.environ, "HOME": folder, "XDG_CONFIG_HOME": folder, "XDG_DATA_HOME": folder, "XDG_STATE_HOME": folder}
        # The unproved program is kept where it always is.
        how["XDG_CACHE_HOME"] = os.environ.get("XDG_CACHE_HOME") or os.path.expanduser("~/.cache")
        try:
            ran = subprocess.run(words, cwd=home, env=how, stdin=subprocess.DEVNULL, stdout=subprocess.PIPE, stderr=subprocess.PIPE, timeout=200)
        except subprocess.TimeoutExpired as error:
            ran = error
        result = home / "result"
        said = f"{text_of(ran.stdout)}{text_of(ran.stderr)}"[-2000:]
        compare(name, result.read_text(encoding="utf-8") if result.exists() else said, wanted)
