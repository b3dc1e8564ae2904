-- Neovim: starts a language server for each folder or each cool.files, and configures nvim-dap.
local here = vim.loop.fs_realpath(debug.getinfo(1, 'S').source:sub(2))
local list = vim.fn.findfile('cool.files', vim.fn.escape(vim.fn.expand('%:p:h'), ' ,;') .. ';')
local root = vim.fn.fnamemodify(list ~= '' and list or vim.fn.expand('%:p'), ':p:h')
local config = { name = 'cool-lsp', cmd = { vim.fn.fnamemodify(here, ':h:h:h') .. '/cool-lsp' }, root_dir = root }
if vim.lsp.start then
  vim.lsp.start(config)
else -- before 0.8
  cool_lsp_clients = cool_lsp_clients or {}
  local client = cool_lsp_clients[root]
  if not client or not vim.lsp.get_client_by_id(client) then
    client = vim.lsp.start_client(config)
    cool_lsp_clients[root] = client
  end
  vim.lsp.buf_attach_client(0, client)
  vim.bo.tagfunc = 'v:lua.vim.lsp.tagfunc'
  vim.bo.omnifunc = 'v:lua.vim.lsp.omnifunc'
end
-- Later ones have these keys by themselves.
if vim.fn.has('nvim-0.10') == 0 then
  vim.keymap.set('n', 'K', vim.lsp.buf.hover, { buffer = true })
end
if vim.fn.has('nvim-0.11') == 0 then
  vim.keymap.set('n', 'gra', vim.lsp.buf.code_action, { buffer = true })
end

-- Debugging, where nvim-dap is there: :lua require('dap').continue() begins, and step_back() and reverse_continue() go back.
local found, dap = pcall(require, 'dap')
if found and not dap.adapters.cool then
  dap.adapters.cool = { type = 'executable', command = vim.fn.fnamemodify(here, ':h:h:h') .. '/cool-dap' }
  dap.configurations.cool = { { type = 'cool', request = 'launch', name = 'Cool', program = '${file}', stopOnEntry = true } }
end
