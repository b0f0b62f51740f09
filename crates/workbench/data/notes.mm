$c wff |- $.
$v p q $.
wp $f wff p $.  wq $f wff q $.
ax $a |- p $.
$( A heading. $)
${
  $( For both. $)
  h $e |- p $.
  $( Two theorems follow. $)
  $( The first. $)
  one $p |- q $= wq ax $.
  $( [5-Aug-1993] $)
  ${
    $( Of the inner block. $)
    k $e |- q $.
    $( The second. $)
    two $p |- p $= h $.
    $( [6-Aug-1993] $)
  $}
$}
three $p |- p $= wp ax $.
$( Behind all. $)
