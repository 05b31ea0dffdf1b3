# Texts of a mail program.
welcome = Welcome, { $name }.
unread = { $count ->
    [one] One message is unread.
   *[other] { $count } messages are unread.
}
