"""Totals of sales per region."""
import sys

class Sale:
    def __init__(self, region, amount):
        self.region = region
        self.amount = amount

class Report:
    def __init__(self, title):
        self.title = title
        self.groups = {}
        self.bad = 0

    def add(self, sale):
        if sale.region not in self.groups:
            self.groups[sale.region] = []
        self.groups[sale.region].append(sale)

    def total(self, region):
        sum_ = 0
        for sale in self.groups[region]:
            sum_ += sale.amount
        return sum_

def read_sale(line):
    parts = line.strip().split(',')
    count = int(parts[1])
    price = int(parts[2])
    return Sale(parts[0], count * price)

def load(path, report):
    with open(path) as source:
        for line in source:
            try:
                sale = read_sale(line)
                report.add(sale)
            except ValueError:
                report.bad += 1

def main():
    path = 'sales.csv'
    if len(sys.argv) > 1:
        path = sys.argv[1]
    report = Report('Sales')
    load(path, report)
    print(report.title)
    grand = 0
    for region in report.groups:
        total = report.total(region)
        print(region.ljust(8) + str(total).rjust(6))
        grand += total
    print('all'.ljust(8) + str(grand).rjust(6))
    print('bad lines:', report.bad)

if __name__ == '__main__':
    main()
