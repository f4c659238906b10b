"""The rules of docs/proof/profile.md, docs/proof/formats.md and docs/use/scenario.md once more, in Python, for checks/model,
checks/model-card and checks/model-host.

Written from the rules and from the standards, and not from the program: it shares no table and no line with it, and has a
way of its own where there is one. A dialogue is a generator that asks and is sent the replies; a card changes its counters
as it goes, and keeps them in pages that tear; the issuer looks back over the messages that it kept.

    ciphers    DES, authentication codes, keys, cryptograms, PIN blocks
    objects    data objects, object lists, commands, the dictionary
    selection  the terminal up to the card's data
    terminal   the terminal's whole dialogue
    memory     pages that tear, and the redo journal on them
    card       a card's answers
    messages   messages to the issuer, in both spellings, and their first fault
    issuer     the issuer's replies with their reasons, and balances
    world      lanes, settlement, audit, and traces
    document   a TOML document read as a scenario or a trace, or its first fault
    reader     a card at lines
    comparing  a program at lines beside the model

and what is drawn for them:

    draw, spoil            scenarios, and faults in them
    directories            cards of canned answers with a directory
    commands, sessions     commands for a card at lines
    histories              messages for a host at lines
"""
