-- Flags: allow-oom
-- An operator ends a session that has no host: INCARNATION FORCE(0|1) VERSION EXPIRE(ms; 0 at once, -1 never)
-- ok; or lost, alive (its host holds the name).
local inc, expire = ARGV[1], tonumber(ARGV[4])
local name = redis.call('HGET', key(inc, 'about'), 'name')
if not name then return {'lost'} end
if redis.call('GET', 'fleet:lease:' .. name) == inc then
  if ARGV[2] == '0' then return {'alive'} end
  redis.call('DEL', 'fleet:lease:' .. name)
end
if expire ~= 0 then
  guarded(close, inc, 'ended', ARGV[3], -1)
  expire_all(inc, expire)
  return {'ok'}
end
local user = redis.call('HGET', key(inc, 'about'), 'user')
forget(inc)
-- Its host, if it lives, is told so for a week, and doesn't take this for a store that went back.
redis.call('HSET', key(inc, 'about'), 'closed', 'ended', 'user', user or '')
redis.call('PEXPIRE', key(inc, 'about'), 7 * 86400 * 1000)
return {'ok'}
