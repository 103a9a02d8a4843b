"""The launcher of rapid_cell: finds, builds and starts the program, and explains what it answers. One file a concern.

Words:
    words           the command line: takes the launcher's words, and passes the others to the program
    run_words       the words about what the program prints of a cell
    asked           the words without options, and the program that answers them
    actions         the table of words, and the help
    say             what the launcher prints, and its own statuses
    hints           what helps where words or a file are refused
    completion      completion for the shell
    version         the version, the commit, the kit, and the program that answers
The program:
    places          where the program and its files lie, in a checkout or where they were installed
    program         finds the program, runs it, becomes it
    build           proves the crates and builds the program
    proof           what the kit said of each crate when it proved it, kept with a checksum of what it was proved from
    record          the record of a proof, PROVED, and `proved RECORD`
    package         `package`: the record, a Debian package (debian) and a tar.gz (packed has what is in both)
    man             the man page, from the table of words
    child           a child process that does not outlive the launcher
    kept            the unproved program, kept with a checksum of the sources
Texts:
    texts           the texts of a cell: its script and its modules
    script          what a script says: tasks, signals, zones, inputs
    toml_places     the keys of a TOML text, with their places and values; toml_values has strings and numbers, toml_tables the tables
    toml_faults     where and why a text is not TOML
    tokens          the tokens of a module's text
    grammar         the grammar of docs/LANGUAGE.md, and a parser by it
    names           the names that a module declares, those that are predefined, and the nearest ones
    tables          the tables of docs/LANGUAGE.md and docs/CELL_SCRIPT.md
    manual          the names of ABB's manuals that are not supported, from manual.txt
    reserved        the reserved words, from reserved.txt, and the marks
    explain         `explain WORD`
    examples        `examples WORD`
    new             `new FOLDER`
A refusal:
    refusals        a refusal, read from the program's line
    view            the place of a refusal in a module, with the forms around it
    causes          why a module is refused; form_causes, name_causes and script_causes have the rules, own_cause what they tell
    excerpt         a line of a text with a caret
    shown           a refusal, shown
All errors at once:
    checks          a check of a cell, also with other texts than its files have
    draft           a copy of a module in which what is wrong is left out
    form_mends, name_mends, script_mends    what is left out, by the rule
    consequences    which refusals of a draft only follow from what was left out
    faults          the search for all errors
    check_all       `check --all CELL`
    watch           `watch CELL`
    to_abb          `check --abb CELL`
A run:
    history         the lines of a history
    events          where the events of a run come from: a run, or a history that was kept
    replay          a cell along a history: its arms, zones and signals
    trace           the lines of a trace: events with the places of statements
    table           `table CELL`
    timeline        the events of a run as columns of numbers
    page_file       the file of a page
    show            `show CELL`; page/ has the page's parts: page.html, page.css, and its scripts
    why             `why CELL`; why_faults, why_errors, why_zones, why_waits, why_meetings and why_steps have the reasons, rings the
                    tasks that wait for one another
    story           the tasks of a run along its events, and what changed last
    tasks           a task of a run: its machine, its modules, what it did
    caught          zones that became watched while an arm stood in them
    pulses          for how long signals had a value, and where the tasks were then
    blame           which parts of a condition keep it from being TRUE
    interrupts      the interrupts of the tasks, and which of them wait; interrupt_words has them in words
    state_notes     the interrupts below the lines of `state`
    watched_gaps    `clearance --watched CELL`
    touching        where a way touches a zone
    coverage        which statements ran, and which lists inside them
    cover           `cover CELL..`
The code of tasks:
    statements      the routines of a module and their statements
    code            the code of a task, walked along its statements
    lengths         the places where a task keeps its data, their names and first values
    constants       the values of constant expressions
    machine         a task along its events; operations, arm_operations and raising have those of its code, memory its data
    values          values of RAPID, and what operators make of them
    writers         the statements that write a persistent or a signal
    listing         `list --source CELL`
    lint            `lint CELL`; lint_data, lint_traps, lint_flow and lint_meetings have the checks, lint_places and lint_locks what
                    these look at
A backup of a controller:
    abb             `import BACKUP OUT`: a package of its own, which lists its files
The language server:
    lsp             the server; lsp_wire, lsp_text, lsp_files, lsp_checker, lsp_diagnostics, lsp_hover, lsp_definition, lsp_completion
    symbols         what a name of a cell means

Python 3.8 or later, and only its standard library.
"""
