-- Neovim with nvim-dap: put this into your init.lua. Back: require("dap").step_back(), .reverse_continue(), .goto_()
local dap = require("dap")
dap.adapters.ssdap = { type = "executable", command = "ssdap" }
dap.configurations.simscript2 = {
  {
    type = "ssdap",
    request = "launch",
    name = "this model",
    model = "${file}",
    -- x.data beside x.sim, if it is there
    data = function()
      local path = vim.fn.expand("%:p:r") .. ".data"
      return vim.fn.filereadable(path) == 1 and path or nil
    end,
    stopOnEntry = true,
  },
}
-- Neovim takes *.sim for Simula. This works before 0.8 too, where `vim.filetype.add` counts for nothing.
vim.cmd("autocmd BufRead,BufNewFile *.sim set filetype=simscript2")
