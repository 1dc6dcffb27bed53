-- Starts resb-lsp for bundle texts: those below a folder with root.txt or resb.toml. Neovim 0.7 or later.
-- Put this folder on the runtime path, for instance: set runtimepath+=/usr/share/resb/editors/neovim
local function folder_with(path, names)
    local folder = vim.fn.fnamemodify(path, ':p:h')
    while true do
        for _, name in ipairs(names) do
            if vim.fn.filereadable(folder .. '/' .. name) == 1 then
                return folder
            end
        end
        local above = vim.fn.fnamemodify(folder, ':h')
        if above == folder then
            return nil
        end
        folder = above
    end
end

local clients = {}

local function attach(event)
    local path = vim.api.nvim_buf_get_name(event.buf)
    local beside = vim.fn.fnamemodify(path, ':p:h')
    local top = folder_with(path, { 'resb.toml' })
    if not top and vim.fn.filereadable(beside .. '/root.txt') == 1 then
        top = beside
    end
    if not top then
        return
    end
    if path:match('%.txt$') then
        vim.bo[event.buf].filetype = 'resb'
    end
    if not clients[top] or vim.lsp.client_is_stopped(clients[top]) then
        clients[top] = vim.lsp.start_client({
            name = 'resb',
            cmd = vim.g.resb_lsp or { 'resb-lsp' },
            root_dir = top,
            init_options = vim.g.resb_options,
        })
    end
    vim.lsp.buf_attach_client(event.buf, clients[top])
end

vim.api.nvim_create_autocmd({ 'BufReadPost', 'BufNewFile' }, { pattern = { '*.txt', 'resb.toml' }, callback = attach })
