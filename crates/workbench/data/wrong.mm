$c wff $.
a $a wff $.
b $p wff $= a a $.
