"""What from_lambdamoo.py and to_lambdamoo.py share.

`words` has the words and limits of both formats, `losses` what a conversion leaves out or changes, `texts` reads and writes texts by lines,
and `links` follows parents and locations. `database` reads LambdaMOO's files, and `stunt` says why those of later servers can't be read.
`dump` reads dumps of moo. `origin` has what a dump lacks of the database that it came from, and `programs` finds the verb of each program:
`readings` has what else may have happened to the verbs, and `doubts` what is told of it. `accepting` reads verbs `accept` as accept lists.
"""
