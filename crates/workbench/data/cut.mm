$c wff $.
we