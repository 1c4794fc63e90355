"""The generated orders of `demo`."""
import dates
from orders import Order
from problems import METHODS
from region import District


def demo_order(number):
    y = []
    x = number % 2 ** 31
    for _ in range(80):
        x = (1_103_515_245 * x + 12_345) % 2 ** 31
        y.append(x // 65_536)
    y.insert(0, None)  # Y is counted from 1
    longitude = (-170 + y[1] % 340) * 1_000_000
    latitude = (-40 + y[2] % 81) * 1_000_000
    ring = []
    for i in range(64):
        rho = 1000 + y[6 + i] % 9000
        t = i % 16
        dx, dy = ((16, -16 + 2 * t), (16 - 2 * t, 16), (-16, 16 - 2 * t), (-16 + 2 * t, -16))[i // 16]
        ring.append((longitude + rho * dx, latitude + rho * dy))
    ring.append(ring[0])
    o = Order()
    o.method = METHODS[y[3] % 7]
    o.asr = 'standard' if y[4] % 2 == 0 else 'hanafi'
    o.from_day = dates.day_of(2025, 1, 1) + y[5] % 365
    o.days = 30
    o.zone = 60 * ((longitude + 7_500_000) // 15_000_000)
    o.offsets = [o.zone] * 30
    o.district = District([[ring]])
    return o
