-- nvim --headless -u NONE -i NONE -c 'luafile nvim.lua' FILE, with RECIPE_LUA the recipe of docs/guides/editor.md: Neovim's own client
-- sees the one diagnostic of the file, asks what it is, takes the first action, and sees none left; then another one that is
-- typed. A list of links has no type of Neovim's, so its server is started here.
local function say(...) io.stdout:write(string.format(...) .. '\n') end
local buffer = vim.api.nvim_get_current_buf()
dofile(os.getenv('RECIPE_LUA'))
vim.cmd('filetype on')
vim.cmd('filetype detect')
local id = nil
-- (a client is one of the buffer's once its server has answered)
vim.wait(vim.fn.expand('%:e') == 'links' and 0 or 20000, function()
  id = next(vim.lsp.buf_get_clients(buffer))
  return id ~= nil
end, 10)
say('by the recipe: %s', tostring(id ~= nil))
if not id then
  id = vim.lsp.start_client({ name = 'urlcheck', cmd = { 'urlcheck-language-server' }, root_dir = vim.fn.getcwd() })
  vim.lsp.buf_attach_client(buffer, id)
end
local function wait(count)
  return vim.wait(20000, function() return #vim.diagnostic.get(buffer) == count end, 10)
end
say('one diagnostic: %s', tostring(wait(1)))
local it = vim.diagnostic.get(buffer)[1]
say('at line %d byte %d [%s]', it.lnum + 1, it.col + 1, it.user_data.lsp.code)
vim.api.nvim_win_set_cursor(0, { it.lnum + 1, it.col })
local parameters = vim.lsp.util.make_position_params()
local hover = vim.lsp.buf_request_sync(buffer, 'textDocument/hover', parameters, 10000)[id].result.contents.value
say('hover: %s', tostring(hover:find('is not allowed in a URL', 1, true) ~= nil))
-- (what the user is asked is answered by the first choice)
vim.ui.select = function(items, options, choose) say('choice: %s', options.format_item(items[1])); choose(items[1], 1) end
vim.lsp.buf.code_action({ context = { diagnostics = vim.lsp.diagnostic.get_line_diagnostics() } })
vim.wait(10000, function() return vim.bo.modified end, 10)
say('line: %s', vim.api.nvim_buf_get_lines(buffer, it.lnum, it.lnum + 1, false)[1])
say('none left: %s', tostring(wait(0)))
local more = { md = '😀 <http://h/%>', html = '<a href="http://h/%">', links = 'http://h/%', rst = '`é <http://h/%>`__' }
local typed = more[vim.fn.expand('%:e')]
if typed then
  vim.api.nvim_buf_set_lines(buffer, -1, -1, false, { '', typed })
  say('one that is typed: %s', tostring(wait(1)))
end
-- (with two servers each mistake would be there twice)
say('one server: %s', tostring(vim.tbl_count(vim.lsp.get_active_clients()) == 1))
vim.cmd('qa!')
