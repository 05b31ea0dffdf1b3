# Texts of a mail program.
hello-world = Hello, world!
welcome = Welcome, { $name }.
inbox = You have { $count } new messages, { $name }.
unread = { $count ->
    [one] One message is unread.
   *[other] { $count } messages are unread.
}
