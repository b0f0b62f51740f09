$c wff $.
a $a wff $.
b $p wff $= a $.
u $p wff $= ? $.
w $p wff $= b $.
