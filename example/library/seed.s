; Where the random numbers begin.

        .export         seed

.data
seed:   .word   $ACE1
