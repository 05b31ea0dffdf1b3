welcome = Witaj, { $nmae }.
unread = { $count ->
    [one] Jedna nieprzeczytana wiadomość.
    [few] { $count } nieprzeczytane wiadomości.
   *[other] { $count } nieprzeczytanej wiadomości.
}
