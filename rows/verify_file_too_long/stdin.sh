printf 'refutation of question 1\nword at 0: 02\nend\n'
printf 'ask u8 => bool;'
head -c 1048562 /dev/zero | tr '\0' ' '
