brand = Firefox
    .gender = masculine
upd = { brand.gender ->
    [masculine] He
   *[other] It
 }
