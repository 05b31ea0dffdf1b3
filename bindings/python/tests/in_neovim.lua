-- Drives the language server by Neovim's own client, and writes what happens as JSON, a line each.
-- FOLDER, GUIDE and OUT are set by the test that calls it. GUIDE is a file with the lines of the guide.
local out = assert(io.open(OUT, "w"))
local function tell(name, value)
    out:write(vim.fn.json_encode({ name, value }), "\n")
    out:flush()
end

-- Waits until a condition holds.
local function await(condition)
    return vim.wait(180000, condition, 20)
end

local function found()
    local told = {}
    for _, each in ipairs(vim.diagnostic.get(0)) do
        table.insert(told, { each.lnum, each.col, each.message })
    end
    table.sort(told, function(one, other)
        return one[1] < other[1]
    end)
    return told
end

local function lines_of(name)
    return vim.fn.getbufline(vim.fn.bufnr(FOLDER .. "/" .. name), 1, "$")
end

-- Puts the cursor on a text, and returns its place.
local function go(text)
    vim.fn.cursor(1, 1)
    vim.fn.search("\\V" .. text, "cW")
end

-- The lines of the guide, as a user has them in init.lua.
-- The workspace is found from any folder.
vim.cmd("cd " .. vim.fn.fnameescape(FOLDER .. "/l10n/pl"))
vim.cmd("luafile " .. GUIDE)
vim.cmd("edit main.ftl")
await(function()
    return #vim.lsp.get_active_clients() > 0
end)
local client = vim.lsp.get_active_clients()[1].id
await(function()
    return #vim.diagnostic.get(0) > 0
end)
tell("findings", found())

go("nmae")
vim.cmd("normal! cename")
await(function()
    return #vim.diagnostic.get(0) == 2
end)
tell("findings after an edit", found())

go("-brand }")
vim.lsp.buf.definition()
await(function()
    return vim.fn.expand("%:t") == "terms.ftl"
end)
tell("jumped to", { vim.fn.expand("%:t"), vim.fn.line("."), vim.fn.col(".") })
vim.cmd("edit " .. FOLDER .. "/l10n/pl/main.ftl")

go("unread")
local hover = vim.lsp.buf_request_sync(0, "textDocument/hover", vim.lsp.util.make_position_params(), 180000)
tell("hover", hover[client].result.contents.value)

go("welcome")
vim.lsp.buf.rename("greeting")
await(function()
    return lines_of("l10n/pl/main.ftl")[2]:match("^greeting") ~= nil
end)
tell("renamed", {
    lines_of("l10n/pl/main.ftl")[2],
    lines_of("l10n/en-US/main.ftl")[1],
    lines_of("l10n/pl/mark.ftl")[1],
})

go("unread")
local params = vim.lsp.util.make_range_params()
params.context = { diagnostics = {} }
go("$count")
params = vim.lsp.util.make_range_params()
params.context = { diagnostics = {} }
local actions = vim.lsp.buf_request_sync(0, "textDocument/codeAction", params, 180000)[client].result
tell("action", actions[1].title)
vim.lsp.util.apply_workspace_edit(actions[1].edit, "utf-16")
tell("mended", lines_of("l10n/pl/main.ftl"))

vim.fn.append(vim.fn.line("$"), "last   =   {$x}")
if vim.lsp.buf.format then
    vim.lsp.buf.format({ timeout_ms = 180000 })
else
    vim.lsp.buf.formatting_sync(nil, 180000)
end
tell("formatted", lines_of("l10n/pl/main.ftl"))

local settings = { settings = { kozhvadi = { reference = "l10n/none" } } }
vim.lsp.get_client_by_id(client).notify("workspace/didChangeConfiguration", settings)
await(function()
    return #found() > 0 and found()[1][1] == 0
end)
tell("without the reference", found())

vim.lsp.stop_client(client)
await(function()
    return vim.lsp.client_is_stopped(client)
end)
tell("stopped", vim.lsp.client_is_stopped(client))
out:close()
vim.cmd("qa!")
