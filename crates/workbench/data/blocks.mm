$c wff |- $.
$v p q $.
wp $f wff p $.  wq $f wff q $.
$( An axiom. $) ax $a |- p $.

$( A heading, which stays. $)

${
  h $e |- p $.
  $( The first of two. $)
  one $p |- q $= wq ax $.
  ${
    k $e |- q $.
    $( The second, in an inner block. $)
    two $p |- p $= ( ) C $.
  $}
$}

$( Alone. $)
$( It is moved with this comment. $)
three $p |- p $= wp ax $.
${ g $e |- q $. four $p |- q $= ( ) B $. $}  $( Behind all. $)
