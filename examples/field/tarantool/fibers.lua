#!/usr/bin/env tarantool
-- Tarantool by lines: a register is a tuple of a space, and each thread of the bench is a fiber.
--
--     fibers.lua vinyl|memtx FOLDER
--
-- A fiber that has answered reads the next line, and hands over if that is another's. So a transaction yields only if another has a call in it:
-- memtx commits nothing that has yielded.
local fiber = require('fiber')
local engine, folder = arg[1], arg[2]
local REFUSALS = {[box.error.TRANSACTION_CONFLICT] = true, [box.error.TRANSACTION_YIELD] = true}
local line, conds = nil, {}

local function next_call(thread)
    while true do
        line = line or io.read() or os.exit(0)
        local digit, call = line:match('^(%d) (.*)')
        if tonumber(digit) == thread then
            line = nil
            return call:match('^(%u) ?(%d*) ?(%d*)')
        end
        conds[tonumber(digit)]:signal()
        conds[thread]:wait()
    end
end

local function answer(space, letter, register, value)
    if letter == 'X' then return 'A' end
    if not box.is_in_txn() then box.begin() end
    if letter == 'R' then return 'V ' .. tostring(space:get(tonumber(register))[2]):gsub('ULL', '') end
    if letter == 'W' then space:replace{tonumber(register), tonumber(value)} return 'K' end
    box.commit()
    return 'C'
end

local function serve(space, thread)
    while true do
        local is_done, said = pcall(answer, space, next_call(thread))
        if not is_done and not (type(said) == 'cdata' and REFUSALS[said.code]) then
            io.stderr:write('Error: ', tostring(said), '\n')
            os.exit(1)
        end
        said = is_done and said or 'A'
        if said == 'A' and box.is_in_txn() then box.rollback() end
        io.write(thread, ' ', said, '\n')
        io.flush()
    end
end

box.cfg{memtx_dir = folder, vinyl_dir = folder, wal_dir = folder, log = folder .. '/log', wal_mode = engine == 'vinyl' and 'write' or 'none'}
local space = box.schema.space.create('registers', {engine = engine})
space:create_index('primary')
for register = 0, 7 do space:replace{register, 0} end
for thread = 0, 7 do conds[thread] = fiber.cond() end
for thread = 0, 7 do fiber.create(serve, space, thread) end
