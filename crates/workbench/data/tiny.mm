$c wff $.
a $a wff $.
t $p wff $= a $.
