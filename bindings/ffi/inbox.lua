-- A binding for LuaJIT and a program over it: texts of an inbox, with a function of the program. Its argument is the path of
-- the library libfluent_c.so. Run it by run.sh beside this file.
local ffi = require("ffi")
ffi.cdef [[
struct FluentHandle;
struct FluentHandle *fluent_handle_new(void);
void fluent_handle_free(struct FluentHandle *handle);
const char *fluent_handle_status(uint32_t status);
uint32_t fluent_handle_locale(struct FluentHandle *handle, const char *tag, size_t len);
uint32_t fluent_handle_source(struct FluentHandle *handle, const char *text, size_t len);
uint32_t fluent_handle_function(struct FluentHandle *handle, const char *name, size_t len);
void fluent_handle_isolating(struct FluentHandle *handle, bool isolating);
uint32_t fluent_handle_make(struct FluentHandle *handle);
uint32_t fluent_handle_string(struct FluentHandle *handle, const char *name, size_t name_len, const char *text, size_t len);
uint32_t fluent_handle_double(struct FluentHandle *handle, const char *name, size_t name_len, double number);
const char *fluent_handle_called(const struct FluentHandle *handle);
size_t fluent_handle_positional(const struct FluentHandle *handle);
size_t fluent_handle_named(const struct FluentHandle *handle);
const char *fluent_handle_given_text(const struct FluentHandle *handle, size_t index);
size_t fluent_handle_given_len(const struct FluentHandle *handle, size_t index);
const char *fluent_handle_given_name(const struct FluentHandle *handle, size_t index);
uint32_t fluent_handle_answer_string(struct FluentHandle *handle, const char *text, size_t len);
uint32_t fluent_handle_answer_nothing(struct FluentHandle *handle);
const char *fluent_handle_text(const struct FluentHandle *handle);
size_t fluent_handle_text_len(const struct FluentHandle *handle);
const char *fluent_handle_errors(const struct FluentHandle *handle);
uint32_t fluent_handle_format(
    struct FluentHandle *handle, const char *id, size_t id_len, const char *attribute, size_t attribute_len);
]]
local C = ffi.load(arg[1])
local READ, CALL = 0, 12

local function check(status)
    if status ~= READ then error(ffi.string(C.fluent_handle_status(status)), 3) end
end

local Bundle = {}
Bundle.__index = Bundle

-- A bundle of a source, with functions by their names.
function Bundle.new(source, locale, functions)
    local self = setmetatable({functions = functions or {}}, Bundle)
    -- The garbage collector frees it.
    self.handle = ffi.gc(C.fluent_handle_new(), C.fluent_handle_free)
    check(C.fluent_handle_locale(self.handle, locale, #locale))
    check(C.fluent_handle_source(self.handle, source, #source))
    for name in pairs(self.functions) do check(C.fluent_handle_function(self.handle, name, #name)) end
    C.fluent_handle_isolating(self.handle, false)
    check(C.fluent_handle_make(self.handle))
    return self
end

-- Answers the call that the message has come to.
function Bundle:answer()
    local positional, named = {}, {}
    local count = tonumber(C.fluent_handle_positional(self.handle))
    for index = 0, count + tonumber(C.fluent_handle_named(self.handle)) - 1 do
        local text = ffi.string(C.fluent_handle_given_text(self.handle, index), C.fluent_handle_given_len(self.handle, index))
        if index < count then
            positional[#positional + 1] = text
        else
            named[ffi.string(C.fluent_handle_given_name(self.handle, index))] = text
        end
    end
    local answer = self.functions[ffi.string(C.fluent_handle_called(self.handle))](positional, named)
    if answer == nil then return C.fluent_handle_answer_nothing(self.handle) end
    return C.fluent_handle_answer_string(self.handle, answer, #answer)
end

-- The text of a message and the lines of its errors, or nil and why there is none.
function Bundle:format(id, arguments)
    for name, value in pairs(arguments or {}) do
        if type(value) == "number" then
            check(C.fluent_handle_double(self.handle, name, #name, value))
        else
            check(C.fluent_handle_string(self.handle, name, #name, value, #value))
        end
    end
    local status = C.fluent_handle_format(self.handle, id, #id, nil, 0)
    while status == CALL do
        check(self:answer())
        status = C.fluent_handle_format(self.handle, id, #id, nil, 0)
    end
    if status ~= READ then return nil, ffi.string(C.fluent_handle_status(status)) end
    return ffi.string(C.fluent_handle_text(self.handle), C.fluent_handle_text_len(self.handle)),
        ffi.string(C.fluent_handle_errors(self.handle))
end

local inbox = Bundle.new([[
unread = { $count ->
    [one] { $name } has one message.
   *[other] { $name } has { $count } messages.
}
today = Today is { DATE("2026-11-28", style: "long") }.
]], "pl", {
    DATE = function(positional, named) return named.style .. ":" .. positional[1] end,
})
print(inbox:format("unread", {name = "Jane", count = 1}))
print(inbox:format("unread", {name = "Jane", count = 1234567.5}))
print(inbox:format("today"))
print((inbox:format("unread", {count = 2})))
print(inbox:format("missing"))
