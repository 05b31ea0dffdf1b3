-app = Notizen

window-title = { -app } ({ $file })
menu-new = Neue Notiz
    .key = n
menu-remove = Notiz löschen
    .key = l
menu-quit = Beenden
    .key = b
notes = { $count ->
    [0] Es gibt keine Notizen.
    [one] Es gibt eine Notiz.
   *[other] Es gibt { $count } Notizen.
}
room = { NUMBER($share, style: "percent") } des Platzes sind belegt.
unknown-key = Kein Menü hat die Taste { $key }.
goodbye = Auf Wiedersehen, { USER() }.
