rank = { NUMBER($n, type: "ordinal") ->
    [1] first
    [2] second
    [3] third
    [one] {$n}st
    [two] {$n}nd
    [few] {$n}rd
    *[other] {$n}th
}
