"""Makes what is made of the command lines of `fieldc` and `fc`: the page `man/fieldc.1` and the completions of
shells."""
