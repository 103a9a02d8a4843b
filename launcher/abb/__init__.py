"""`import`: from a backup of an ABB controller to a cell. One file a concern.

The words:
    command         the words of `import`, what it prints, its statuses; again is `--again`, recognized names `import` to `check`
    imported        an import: the files that it writes and its report
The backup:
    model           a backup, its tasks, modules and signals; what a converted task is
    backup          reads the folder of a backup; folders, cfg, tasks, signals and cross have its parts
The text of a module:
    tokens          the tokens of RAPID
    tree            the nodes of statements and expressions, each with its bytes; tree_items those of a module's items
    parser          the reader of modules; parse_statements and parse_expressions the forms in them
    walking         goes over the nodes of a tree
    names           the names that a task declares; flow says which routines move the arm, order which module comes first
    types, typing_of, constants    data types, the types of expressions, the values of constant ones
The conversion of a task:
    convert         its modules, each line at its old number
    job             what the conversion of a task keeps; rendering that of a module, with the changes in its text
    declarations, routines, parameters, calls, statements, assignments, expressions, paths    one file a form
    instructions    the tables of rules, which the files of rules.py fill: moves, waits, loops, signal_rules, texts, interrupts, errors,
                    clocks, functions, late, triggers, searches, zones, together
    left_out        the table of what is left out
    guess           signals that EIO.cfg does not have
    library         the generated module, out of from_abb.sys; polling has the wait of a task that only looks
Positions:
    reading         what a reading of positions gives
    places          places of the TCP; place_parts, place_texts, frames, orientations, geometry, starts
    joints          a table of joints; joint_texts, uses, log_joints
    rows, literals  the tables of positions, and positions in the text
The answer:
    cell            the script of the cell
    report          what the report tells, ordered by what matters; report_text its text
"""
