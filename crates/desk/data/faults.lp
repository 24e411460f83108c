cut :- not quiet.
quiet :- not cut.
