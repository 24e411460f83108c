dead :- wire, cut.
:- dead.
