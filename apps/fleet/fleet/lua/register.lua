-- A host begins a session, or goes on with one: NAME INCARNATION USER LEASE(ms) LINGER(ms) VERSION KEYS SIGNALS FIELD VALUE ..
-- KEYS and SIGNALS are two ids each, of what came for the program: the last entry that was read, and the last one that the keeper has.
-- ok, with the end of the bytes; closed, with the status; or taken, with the user who has the name or the session.
-- From now on the store takes nothing from the session's host before. A session of which the store lost the bytes begins anew. A name stays its user's
-- for LINGER after its last host fell silent.
local name, inc, user, lease, linger, version = unpack(ARGV, 1, 6)

-- What the keeper has is removed. What comes gets later ids, also if the store's clock went back, or if it lost the stream.
local function continue(part, read, kept)
  local stream = key(inc, part)
  if redis.call('TYPE', stream).ok ~= 'stream' then redis.call('DEL', stream) end
  redis.call('XTRIM', stream, 'MINID', kept)
  redis.call('XDEL', stream, kept)
  if read ~= '0-0' and not redis.pcall('XADD', stream, read, 'read', 1).err then redis.call('XDEL', stream, read) end
end

local mine = guarded(redis.call, 'HMGET', key(inc, 'about'), 'closed', 'user', 'end') or {}
if mine[2] and mine[2] ~= user then return {'taken', mine[2]} end
if mine[1] then return {'closed', mine[1]} end
local held, old = redis.call('GET', 'fleet:lease:' .. name), redis.call('HGET', 'fleet:names', name)
local other = (held ~= inc and held) or (old ~= inc and old)
if other then
  local about = guarded(redis.call, 'HMGET', key(other, 'about'), 'user', 'renewed', 'closed') or {}
  local since = moment() - (tonumber(about[2] or 0) or 0)
  if held == other or about[1] and not about[3] and about[1] ~= user and since < tonumber(linger) then
    return {'taken', about[1] or ''}
  end
  guarded(close, other, 'lost', version, -1)
end
redis.call('SET', 'fleet:lease:' .. name, inc, 'PX', lease)
redis.call('HSET', 'fleet:names', name, inc)
redis.call('ZADD', 'fleet:all', 'NX', moment(), inc)
redis.call('SADD', 'fleet:live', inc)
if not tonumber(mine[3]) or redis.call('TYPE', key(inc, 'bytes')).ok ~= 'stream' then
  redis.call('DEL', key(inc, 'about'), key(inc, 'bytes'), key(inc, 'checkpoint'))
  redis.call('HSET', key(inc, 'about'), 'name', name, 'user', user, 'started', moment(), 'v', version, 'end', 0)
  redis.call('XADD', key(inc, 'bytes'), '0-1', 'v', version, 't', moment(), 'begin', 1)
  mine[3] = '0'
end
redis.call('HSET', key(inc, 'about'), 'renewed', moment(), unpack(ARGV, 11))
continue('keys', ARGV[7], ARGV[8])
continue('signals', ARGV[9], ARGV[10])
return {'ok', mine[3]}
