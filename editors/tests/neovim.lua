-- In Neovim, with a file of one fault open: writes what is told, once it is told, after an edit, and what :make finds, to $COOL_SAID.
local said = {}
-- Until so many are told, and each with its range, which is explained later than it is told.
local function wait(count)
  vim.wait(30000, function()
    local found = vim.diagnostic.get(0)
    return #found == count and (count == 0 or found[1].severity > 1 or found[1].end_col - found[1].col == 1)
  end, 20)
  for _, found in ipairs(vim.diagnostic.get(0)) do
    table.insert(said, string.format('%d:%d-%d %s', found.lnum + 1, found.col, found.end_col, found.message))
  end
  table.insert(said, string.format('%d told', #vim.diagnostic.get(0)))
end
local function colour(line, column)
  return vim.fn.synIDattr(vim.fn.synID(line, column, 1), 'name')
end
wait(1)
if vim.env.COOL_ONCE then
  vim.fn.writefile(said, vim.env.COOL_SAID)
  vim.cmd('qall!')
end
vim.fn.cursor(2, 27)
local hover = vim.lsp.buf_request_sync(0, 'textDocument/hover', vim.lsp.util.make_position_params(), 30000)
for _, answer in pairs(hover) do
  for _, line in ipairs(vim.list_slice(vim.split(answer.result.contents.value, '\n\n'), 2, 4)) do table.insert(said, line) end
  table.insert(said, answer.result.contents.value:match('%- `([^\n]*)` does not hold'))
end
vim.fn.cursor(5, 19)
vim.cmd('normal! \029') -- CTRL-]
table.insert(said, 'definition: ' .. vim.fn.line('.') .. ':' .. vim.fn.col('.'))
vim.fn.cursor(2, 27)
vim.ui.select = function(items, _, choose) choose(items[1]) end
vim.lsp.buf.code_action()
vim.wait(30000, function() return vim.fn.getline(2):find('true') == nil end, 20)
table.insert(said, 'mended: ' .. vim.fn.getline(2))
wait(0)
local line = vim.fn.getline(3)
vim.fn.setline(3, (line:gsub(' ', '')))
if vim.lsp.buf.format then vim.lsp.buf.format({ timeout_ms = 30000 }) else vim.lsp.buf.formatting_sync({}, 30000) end
table.insert(said, 'laid out: ' .. tostring(vim.fn.getline(3) == line))
vim.cmd('silent make')
for _, found in ipairs(vim.fn.getqflist()) do
  table.insert(said, string.format('make: %d %s', found.lnum, found.text))
end
table.insert(said, colour(1, 1) .. ' ' .. colour(2, 18))
vim.fn.writefile(said, vim.env.COOL_SAID)
vim.cmd('qall!')
