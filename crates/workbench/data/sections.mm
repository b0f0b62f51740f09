$c wff |- $.
$v p q $.
wp $f wff p $.  wq $f wff q $.
ax $a |- p $.
one $p |- p $= wp ax $.
$( #### A heading #### $)
$c S $.
$( About S. $)
ws $a wff S $.
two $p |- S $= ws ax $.
$( Of p. $)
three $p |- p $= wp ax $.
four $p |- q $= wq ax $.
