"""The studio: a page on which a network is drawn and everything of it moves, and the server of that page. The modules:

    studio              the command `forestlab studio`
    server              the server: who may ask, and a process for each call
    connections         connections before they are answered; how many, and for how long
    limits              the limits of a call
    session             what the studio is open with
    building            the proof and the build, begun by a button
    calls               the calls of the page by their names, and what answers each
    messages            what each call asks
    answers             what the page gets
    fields              what a field of a call has to be, and its refusal
    call_values         the network and the program that a call asks about
    call_progress       how a call says how far it is
    judges              who answers: the proved programs or the definitions
    networks            the calls on networks: examples, files, layouts
    drawn_network       the network of an address
    address             the addresses of the page: every name and its values
    rounds              the calls on plans, rounds and pictures
    runs                the calls on runs without a clock
    reactions           the calls on a file of one's own
    predictions         predict, then look
    lessons             the table of the lessons and of the lecture
    exercises           the exercises of the lessons, judged
    dares               the dares of the tab Adversary
    own_dares           the dares of a file of one's own
    links               the links of a class, judged
    local_states        all runs of a small network, by the states of its single nodes
    local_reactions     the same of nodes that react to messages
    publishing          the studio as static files
    recording           which calls a published page can make
    recorded_answers    what it has in place of a server
    bundle              the modules of the page as one script

The network of an address, in the DIMACS format:

>>> from forestplan.studio.drawn_network import drawn_of
>>> print(drawn_of("10.20_90.20~1-2~n1-Oslo").text(), end="")
p edge 2 1
e 1 2
"""
