$c wff |- $.
$v p q $.
wp $f wff p $.  wq $f wff q $.
ax $a |- p $.
$( A heading. $)
${
  two.1 $e |- p $.
  $( The first. $)
  one $p |- q $= wq ax $.
  $( The second. $)
  two $p |- p $= two.1 $.
  $( Beside. $)
  aside $p |- p $= wp two.1 two $.
$}
three $p |- p $= wp wp ax two $.
four $p |- q $= wp wq wp ax one $.
