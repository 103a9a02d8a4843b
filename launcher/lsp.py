"""`lsp CELL`: a language server for the modules and the script of a cell, over standard input and output.

Diagnostics are what the program says of the cell, also of texts that are not saved yet; hover, definitions and completion read the
texts and the tables of the documents. The parts are the files lsp_*.py; symbols.py knows what names mean.
"""
import sys
import traceback
from pathlib import Path
from typing import Any, Callable, Dict, List, Optional

from . import lsp_completion, lsp_definition, lsp_hover
from .lsp_checker import Checker
from .lsp_diagnostics import Diagnostic
from .lsp_files import Files, path_of
from .lsp_text import Text
from .lsp_wire import INTERNAL_ERROR, INVALID_REQUEST, METHOD_NOT_FOUND, Message, Wire
from .program import Program
from .texts import Cell, Module

NOT_INITIALIZED = -32002
INVALID_PARAMS = -32602
WARNING = 2
CAPABILITIES = {
    # A change sends the whole text.
    "textDocumentSync": {"openClose": True, "change": 1, "save": True},
    "hoverProvider": True,
    "definitionProvider": True,
    "completionProvider": {"triggerCharacters": ["\\", "."]},
}


def serve(script: Path) -> int:
    """Serves until the editor ends it. The status is 0 after `shutdown` and `exit`, else 1."""
    # Nothing but messages may go to standard output.
    target, sys.stdout = sys.stdout.buffer, sys.stderr
    return Server(script, Wire(sys.stdin.buffer, target)).serve()


class Server:
    def __init__(self, script: Path, wire: Wire) -> None:
        self.wire = wire
        self.files = Files(script.absolute())
        self.checker = Checker(self.files, self.publish, self.say)
        self.is_started = self.is_shut = False
        # The files whose diagnostics an editor shows.
        self.shown: Dict[Path, bool] = {}
        self.answers: Dict[str, Callable[[Any], Any]] = {
            "initialize": self.initialize,
            "shutdown": self.shutdown,
            "textDocument/hover": self.hover,
            "textDocument/definition": self.definition,
            "textDocument/completion": self.completion,
        }
        self.news: Dict[str, Callable[[Any], None]] = {
            "textDocument/didOpen": self.opened,
            "textDocument/didChange": self.changed,
            "textDocument/didSave": lambda params: self.checker.changed(),
            "textDocument/didClose": self.closed,
            "workspace/didChangeWatchedFiles": lambda params: self.checker.changed(),
        }

    def serve(self) -> int:
        try:
            for message in self.wire.messages():
                if message.get("method") == "exit":
                    break
                self.take(message)
        finally:
            self.checker.end()
        return 0 if self.is_shut else 1

    def take(self, message: Message) -> None:
        """A request is answered, a notification is done; answers to requests of this server's, which makes none, are passed over."""
        method, number = message.get("method"), message.get("id")
        if "id" in message and method is not None:
            self.reply(str(method), number, message.get("params"))
        elif method in self.news and self.is_started:
            try:
                self.news[method](message.get("params"))
            except (KeyError, TypeError, IndexError):
                traceback.print_exc()

    def reply(self, method: str, number: Any, params: Any) -> None:
        if method not in self.answers:
            self.wire.refuse(number, METHOD_NOT_FOUND, f"{method} is not supported")
        elif self.is_shut:
            self.wire.refuse(number, INVALID_REQUEST, "the server was shut down")
        elif self.is_started == (method == "initialize"):
            self.wire.refuse(number, NOT_INITIALIZED, "initialize has to come first, and only once")
        else:
            try:
                result = self.answers[method](params)
            except (KeyError, TypeError, IndexError) as error:
                self.wire.refuse(number, INVALID_PARAMS, f"a parameter is missing: {error!r}")
            except Exception as error:  # The editor's next request is still answered.
                traceback.print_exc()
                self.wire.refuse(number, INTERNAL_ERROR, repr(error))
            else:
                self.wire.answer(number, result)

    # What is asked

    def initialize(self, params: Any) -> Any:
        self.is_started = True
        self.checker.start()
        return {"capabilities": CAPABILITIES, "serverInfo": {"name": "rapid_cell"}}

    def shutdown(self, params: Any) -> None:
        self.is_shut = True

    def hover(self, params: Any) -> Any:
        place = self.place(params)
        if not place:
            return None
        if place.is_script:
            shown = lsp_hover.in_script(place.text, place.at)
        else:
            shown = lsp_hover.in_module(self.files, place.cell, place.modules, place.text, place.at)
        return {"contents": {"kind": "markdown", "value": shown}} if shown else None

    def definition(self, params: Any) -> Any:
        place = self.place(params)
        if not place:
            return []
        if place.is_script:
            return lsp_definition.in_script(self.files, place.cell, place.at)
        return lsp_definition.in_module(self.files, place.cell, place.modules, place.text, place.at)

    def completion(self, params: Any) -> Any:
        place = self.place(params)
        if not place or place.is_script:
            return []
        return lsp_completion.in_module(self.files, place.cell, place.modules, place.text, place.at)

    def place(self, params: Any) -> "Optional[PlaceInFile]":
        """The place that is asked about, or None if its file cannot be read."""
        file = path_of(params["textDocument"]["uri"])
        text = self.files.text(file) if file else None
        cell, _ = self.files.snapshot()
        if not file or text is None or not cell:
            return None
        at = Text(text).place(params["position"])
        return PlaceInFile(cell, self.files.modules_at(cell, file), text, at, self.files.is_script(file))

    # What is sent

    def opened(self, params: Any) -> None:
        self.files.put(params["textDocument"]["uri"], params["textDocument"]["text"])
        self.checker.changed()

    def changed(self, params: Any) -> None:
        self.files.put(params["textDocument"]["uri"], params["contentChanges"][-1]["text"])
        self.checker.changed()

    def closed(self, params: Any) -> None:
        self.files.close(params["textDocument"]["uri"])
        self.checker.changed()

    # What is said

    def publish(self, found: List[Diagnostic], ready: Program) -> None:
        """Shows the diagnostics of each file that has some, and none in the files that had some before."""
        source = "rapid_cell" if ready.is_proved else "rapid_cell (not proved)"
        files: Dict[Path, List[Diagnostic]] = {file: [] for file in self.shown}
        for it in found:
            files.setdefault(it.file, []).append(it)
        for file, own in files.items():
            text = Text(self.files.text(file) or b"")
            shown = [it.shown(text, source) for it in own]
            self.wire.notify("textDocument/publishDiagnostics", {"uri": self.files.uri(file), "diagnostics": shown})
        self.shown = {file: True for file, own in files.items() if own}

    def say(self, text: str) -> None:
        self.wire.notify("window/showMessage", {"type": WARNING, "message": f"rapid_cell: {text}"})


class PlaceInFile:
    def __init__(self, cell: Cell, modules: List[Module], text: bytes, at: int, is_script: bool) -> None:
        self.cell, self.modules, self.text, self.at, self.is_script = cell, modules, text, at, is_script
