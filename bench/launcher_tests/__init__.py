"""Tests of the launcher, the examples and the documents. bench/launcher_test runs them.

    common       what all of them need: starting the launcher, comparing, tables of the documents
    cells        every example and every module of the documents, with what it has to answer
    spreadsheet  `table`, over every example
    pages        `show`: its pages, run by node in the document of browser.js
    page_rows    the rows of a page, the places of all tasks, the reasons, and two histories side by side
    browsing     `show` in headless Chromium (chromium), which bench/show_browser runs
    covers       `trace`, `cover`, and the places on pages, on the cells of traced/ and their traces
    sources      `list --source`, over every example
    state_words  what is said of interrupts below the lines of `state`
    kept_runs    `why`, `show`, `table` and `cover` of a history
    second_machine    the launcher's machine against `trace` and `state`, over every example
    planted      `lint`, on the cells of planted/, and over every example
    histories    the whole history of each example's run, against its lines
    words        the command line, the help, completion, and streams that fail
    refused      refusals, as they are shown
    all_faults   `check --all`, on the five cells of abb/
    explained    every word that `explain` has to know
    building     building, and the unproved program that is kept, with a kit that only pretends
    releases     the proof that `build` keeps, `proved`, and what `package` refuses; bench/release_test tries the packages
    damage       damaged or strange files, names and checkouts, and signals
    watched      `watch`
    threads      a cell whose threads the system refuses
    readme       the commands of README.md, and the links of all pages
    from_abb     the steps of docs/FROM_ABB.md
    editors      the patterns of docs/EDITORS.md
    lsp          the language server, by lsp_client on the cell of lsp_cell; lsp_editors has it in Neovim and Emacs
"""
