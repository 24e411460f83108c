radio :- not wire.
wire :- not radio.
