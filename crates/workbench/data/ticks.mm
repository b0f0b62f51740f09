$c wff |- $.
$v p $.
wp $f wff p $.
$( The word ` p `, see ~ ax and `` ~ ax ; not `( ~ ax `` ~ ax )`, but ~ ax . $)
ax $a |- p $.
