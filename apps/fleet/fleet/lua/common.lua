-- What the functions share.
local function key(inc, part) return 'fleet:' .. inc .. ':' .. part end

local function moment()
  local time = redis.call('TIME')
  return tonumber(time[1]) * 1000 + math.floor(tonumber(time[2]) / 1000)
end

-- Calls something for a session. Nothing that is wrong with one session stops a function that is about many. Returns nil if its keys or fields have
-- a wrong form, and the error.
local function guarded(call, ...)
  local is_sound, answer = pcall(call, ...)
  if is_sound then return answer end
  return nil, tostring(type(answer) == 'table' and answer.err or answer)
end

local parts = {'about', 'bytes', 'checkpoint', 'keys', 'signals'}

-- Has all that there is of a session removed after a time; -1 for never.
local function expire_all(inc, after)
  if tonumber(after) < 0 then return end
  for _, part in ipairs(parts) do redis.call('PEXPIRE', key(inc, part), after) end
end

-- Closes a session's bytes with a status, unless they are closed.
local function close(inc, status, version, after)
  redis.call('SREM', 'fleet:live', inc)
  local about = redis.call('HMGET', key(inc, 'about'), 'end', 'closed', 'expire')
  if not about[1] or about[2] then return end
  redis.call('HSET', key(inc, 'about'), 'closed', status)
  redis.call('XADD', key(inc, 'bytes'), about[1] .. '-2', 'v', version, 't', moment(), 'status', status)
  expire_all(inc, about[3] or after)
end

-- Frees a name that a session has.
local function free_name(name, inc)
  if redis.call('GET', 'fleet:lease:' .. name) == inc then redis.call('DEL', 'fleet:lease:' .. name) end
end

-- Removes all that there is of a session.
local function forget(inc)
  local name = guarded(redis.call, 'HGET', key(inc, 'about'), 'name')
  for _, part in ipairs(parts) do redis.call('UNLINK', key(inc, part)) end
  redis.call('SREM', 'fleet:live', inc)
  redis.call('ZREM', 'fleet:all', inc)
  if name and redis.call('HGET', 'fleet:names', name) == inc then redis.call('HDEL', 'fleet:names', name) end
end

-- Returns the end of a session's bytes if a host may write there. Otherwise returns nil and the answer: closed; lost; or taken, with the host that may.
local function place_of(inc, host)
  local about = redis.call('HMGET', key(inc, 'about'), 'end', 'closed', 'host')
  if about[2] then return nil, {'closed', about[2]} end
  if not about[1] then return nil, {'lost'} end
  if about[3] ~= host then return nil, {'taken', about[3] or ''} end
  if not tonumber(about[1]) then return nil, {'lost'} end
  return tonumber(about[1]), about[1]
end
