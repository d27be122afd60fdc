"""Tools around consensus_routing: pictures, networks, text and many runs. They need Python 3.8 and its standard library, and
are no part of what is proved: all that they know of a run is the text that the program writes."""
