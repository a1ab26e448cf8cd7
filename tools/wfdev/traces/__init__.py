"""Traces and their answers, as the script ./wf shows them. Nothing here is proved: it reads only the text of
calls and answers."""
