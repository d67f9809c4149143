"""What the scripts of tools/ and bench/ have in common: programs and what they are run on, and what comes of it.

    texts       files with texts, in a folder that goes with them
    programs    one run of a program, and how it is built
    arguments   the words of a command line
    refusing    a run in which the system refuses memory or threads
    reports     the lines of a report, by the events that they answer
    loads       tables with rules, and scripts over them
    measures    what a run takes, and figures as docs/PERFORMANCE.md has them
    servers     a PostgreSQL of one's own
    journals    the lines of a journal's file, and what the program says of it
    crates      crates.txt, the crates' edits, and the kit
    libraries   the C library and the package of Python, built for a run
    pages       the code that stands on the repository's pages

Its tests: python3 -m unittest discover -s tools/harness/tests -t tools
"""
