"""What `import forestplan` gives: calls of the proved programs with graphs of Python. The modules:

    calls           plans, verdicts, rounds and runs of a graph
    answers         what the calls return, which a notebook shows as pictures
    graphs          a graph of Python, with bars and a licence, as the text that the programs read
    sites           the graph of sites that are near each other
    programs        where the programs are, and how they are called

Write a graph as the programs read it, and its nodes in the order of their numbers:

>>> from forestplan.interface.graphs import text_of
>>> text, order = text_of({"Ulm": ["Hof"], "Hof": []})
>>> print(text.splitlines()[-1], order)
e 1 2 ['Ulm', 'Hof']
"""
