# The texts of a program for notes. Each language has this file in its folder.
-app = Notes

window-title = { -app } ({ $file })
menu-new = New note
    .key = n
menu-remove = Remove a note
    .key = r
menu-quit = Quit
    .key = q
# $count (Number) - how many notes there are
notes = { $count ->
    [0] There are no notes.
    [one] There is one note.
   *[other] There are { $count } notes.
}
# $number (Number) - the place of the note in the list
# $text (Text) - the note
note = { $number }. { $text }
# $share (Number) - how much of the room is in use
room = { NUMBER($share, style: "percent") } of the room is in use.
unknown-key = No menu has the key { $key }.
no-such-note = There is no note { $number }.
goodbye = Goodbye, { USER() }.
