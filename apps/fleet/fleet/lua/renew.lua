-- A machine's host renews its leases: LEASE(ms) HOST NAME INCARNATION ..
-- ok, and an answer for each session: ok, with the end of the bytes; closed, lost, taken; or wrong, with the error. A session of which any key is gone
-- is lost: its host registers it again.
local lease, host, now = ARGV[1], ARGV[2], moment()

-- All hosts call this all the time, so it costs the store few commands.
local function renew(name, inc)
  local there, answer = place_of(inc, host)
  if not there then return answer end
  local held = redis.call('GET', 'fleet:lease:' .. name)
  if held and held ~= inc then return {'taken', held} end
  if redis.call('EXISTS', key(inc, 'bytes'), 'fleet:names', 'fleet:all', 'fleet:live') < 4 then return {'lost'} end
  redis.call('SET', 'fleet:lease:' .. name, inc, 'PX', lease)
  redis.call('HSET', key(inc, 'about'), 'renewed', now)
  return {'ok', answer}
end

local answers = {'ok'}
for at = 3, #ARGV, 2 do
  local answer, error = guarded(renew, ARGV[at], ARGV[at + 1])
  answers[#answers + 1] = answer or {'wrong', error}
end
return answers
