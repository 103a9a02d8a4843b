"""The language server, by a client that talks its protocol."""
import tempfile
from pathlib import Path

from .common import compare
from .lsp_cell import MAIN, SCRIPT, TOOLS, write_cell
from .lsp_client import PATIENCE, Client


def place_of(text, mark, shift=0):
    """The position of a text that is there once."""
    assert text.count(mark) == 1, mark
    at = text.index(mark) + shift
    return {"line": text.count("\n", 0, at), "character": at - text.rfind("\n", 0, at) - 1}


def try_lsp():
    with tempfile.TemporaryDirectory() as folder:
        try_client(write_cell(folder))


def try_client(home):
    main, tools, script = (home / it for it in ("main.mod", "parts/tools.mod", "cell.toml"))
    uri = main.as_uri()
    client = Client("cell.toml", home)
    compare("lsp, before initialize", client.request("shutdown"), -32002)
    features = client.request("initialize", processId=None, rootUri=home.as_uri(), capabilities={})
    compare("lsp, features", sorted(features["capabilities"]), ["completionProvider", "definitionProvider", "hoverProvider", "textDocumentSync"])
    client.notify("initialized")
    client.notify("textDocument/didOpen", textDocument={"uri": uri, "languageId": "rapid", "version": 1, "text": MAIN})
    try_diagnostics(client, main, tools, script)
    try_names(client, home, main, tools, script)
    compare("lsp, no such request", client.request("textDocument/rename"), -32601)
    client.raw(b"Content-Length: 3\r\n\r\n{]x")
    compare("lsp, no JSON", client.answer(None), -32700)
    compare("lsp, hover without parameters", client.request("textDocument/hover"), -32602)
    compare("lsp, nothing said", client.said, [])
    compare("lsp, end", client.end(), (None, -32600, 0, b""))


def change(client, uri, text):
    client.notify("textDocument/didChange", textDocument={"uri": uri, "version": 2}, contentChanges=[{"text": text}])


def try_diagnostics(client, main, tools, script):
    """What is refused is shown at its place, in texts that are saved and that are not, and goes away when it is mended."""
    uri = main.as_uri()
    change(client, uri, MAIN.replace("fine", "z10"))
    compare("lsp, a change", client.wait_for(uri, [(7, 33, 7, 36, "CornerZone")]), [(7, 33, 7, 36, "CornerZone")])
    compare("lsp, the file stays", main.read_text(), MAIN)
    change(client, uri, MAIN)
    compare("lsp, mended", client.wait_for(uri, []), [])
    # All errors of the cell come, the first one first.
    change(client, uri, MAIN.replace("fine", "z10").replace("GOTO done", "GOTO gone"))
    wanted = ["CornerZone", "NoLabel"]
    compare("lsp, all errors", client.wait_for_rules(uri, wanted), wanted)
    # Places count UTF-16 units: the two characters of the header are 6 bytes, and 3 units.
    change(client, uri, "%%% \U0001f600é %%% MODULE M VAR robtarget over; PROC main() ENDPROC ENDMODULE\n")
    wanted = [(0, 25, 0, 34, "NoName")]
    compare("lsp, units", client.wait_for(uri, wanted), wanted)
    change(client, uri, MAIN.replace("ENDMODULE\n", ""))
    compare("lsp, at the end", client.wait_for_rules(uri, ["Syntax"]), ["Syntax"])
    change(client, uri, MAIN)
    # A file that no buffer shows, changed on the disk.
    tools.write_text(TOOLS.replace("Incr count", "Incr counts"))
    wanted = [(4, 9, 4, 15, "NoName")]
    compare("lsp, another module", client.wait_for(tools.as_uri(), wanted), wanted)
    tools.write_text(TOOLS)
    compare("lsp, another module mended", client.wait_for(tools.as_uri(), []), [])
    script.write_text(SCRIPT.replace("arm = [0,", "arm = [0.5,"))
    wanted = [(9, 0, 9, 3, "Kind")]
    compare("lsp, the script", client.wait_for(script.as_uri(), wanted), wanted)
    script.write_text(SCRIPT.replace('"b.mod"', '"c.mod"'))
    wanted = [(13, 0, 13, 7, "read")]
    compare("lsp, a missing module", client.wait_for(script.as_uri(), wanted), wanted)
    script.write_text(SCRIPT)
    compare("lsp, the script mended", client.wait_for(script.as_uri(), []), [])


def try_names(client, home, main, tools, script):
    uri = main.as_uri()

    def ask(what, mark, shift=0, text=MAIN, name=uri):
        return client.request(f"textDocument/{what}", textDocument={"uri": name}, position=place_of(text, mark, shift))

    def defined(mark, shift=0, text=MAIN, name=uri):
        return [(Path(it["uri"]).name, *it["range"]["start"].values()) for it in ask("definition", mark, shift, text, name)]

    def hovered(mark, shift=0):
        found = ask("hover", mark, shift)
        return found["contents"]["value"] if found else ""

    compare("lsp, definition of a routine", defined("fetch parts"), [("tools.mod", 3, 7)])
    compare("lsp, definition of a routine's datum", defined("fetch parts", 6), [("main.mod", 6, 12)])
    compare("lsp, definition of a constant", defined("home\\NoEOffs", 2), [("main.mod", 1, 20)])
    compare("lsp, definition of a FOR's variable", defined('\\Num:=tries', 7), [("main.mod", 10, 8)])
    compare("lsp, definition of a LOCAL item", defined("tries := tries"), [("main.mod", 2, 16)])
    compare("lsp, definition of a label", defined("GOTO done", 5), [("main.mod", 14, 2)])
    compare("lsp, definition of a signal", defined("di_part"), [("cell.toml", 2, 12)])
    compare("lsp, definition of what is predefined", defined("v100"), [])
    compare("lsp, definition of a component", defined("rax_1"), [])
    compare("lsp, definition of a module", defined("parts/tools", 0, SCRIPT, script.as_uri()), [("tools.mod", 0, 0)])
    compare("lsp, hover on a routine", hovered("fetch parts"), "```rapid\nPROC fetch(INOUT num count, num angle)\n```\ntools.mod, line 4\n\nFetches a part.\nAt most twice.")
    compare("lsp, hover on an instruction", "jointtarget" in hovered("MoveAbsJ") and "LANGUAGE.md" in hovered("MoveAbsJ"), True)
    compare("lsp, hover on a word", "FOR" in hovered("FOR tries") and "LANGUAGE.md" in hovered("FOR tries"), True)
    compare("lsp, hover on what is missing", "MoveAbsJ" in word_of(client, uri, "MoveL"), True)
    compare("lsp, hover on a gap", hovered(" := [[0", 3), "")
    labels = [it["label"] for it in ask("completion", "tries := tries + 1")]
    wanted = {"fetch", "parts", "home", "tries", "di_part", "do_lamp", "MoveAbsJ", "WHILE", "jointtarget", "Abs"}
    compare("lsp, completion", wanted - set(labels), set())
    compare("lsp, each once", len(labels), len(set(labels)))
    compare("lsp, completion of a component", [it["label"] for it in ask("completion", ".rax_1", 1)][:2], ["rax_1", "rax_2"])
    compare("lsp, completion of an option", [it["label"] for it in ask("completion", "\\NoEOffs", 1)], ["NoEOffs", "WObj"])
    compare("lsp, completion in a string", ask("completion", "try \"", 2), [])


def word_of(client, uri, word):
    """What is shown of a word in a module that has it."""
    text = f"MODULE M\n  PROC main()\n    {word} over;\n  ENDPROC\nENDMODULE\n"
    change(client, uri, text)
    found = client.request("textDocument/hover", textDocument={"uri": uri}, position={"line": 2, "character": 5})
    change(client, uri, MAIN)
    return found["contents"]["value"] if found else ""


def try_lsp_end():
    """An editor that goes away without a word ends the server."""
    with tempfile.TemporaryDirectory() as folder:
        client = Client("cell.toml", write_cell(folder))
        client.server.communicate(timeout=PATIENCE)
    compare("lsp, no editor", client.server.returncode, 1)
