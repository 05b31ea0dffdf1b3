-app = Notatki

window-title = { -app } ({ $file })
menu-new = Nowa notatka
    .key = n
menu-remove = Usuń notatkę
    .key = u
menu-quit = Zakończ
    .key = z
notes = { $count ->
    [0] Nie ma notatek.
    [one] Jest { $count } notatka.
    [few] Są { $count } notatki.
   *[many] Jest { $count } notatek.
}
no-such-note = Nie ma notatki { $number }.
goodbye = Do widzenia, { USER() }.
