.class public Lm/Fields;
.super Ljava/lang/Object;

.field private i000:J
.field public static s001:I
.field public static s002:I
.field private i003:J
.field public static s004:I
.field public static s005:I
.field private i006:J
.field public static s007:I
.field public static s008:I
.field private i009:J
.field public static s010:I
.field public static s011:I
.field private i012:J
.field public static s013:I
.field public static s014:I
.field private i015:J
.field public static s016:I
.field public static s017:I
.field private i018:J
.field public static s019:I
.field public static s020:I
.field private i021:J
.field public static s022:I
.field public static s023:I
.field private i024:J
.field public static s025:I
.field public static s026:I
.field private i027:J
.field public static s028:I
.field public static s029:I
.field private i030:J
.field public static s031:I
.field public static s032:I
.field private i033:J
.field public static s034:I
.field public static s035:I
.field private i036:J
.field public static s037:I
.field public static s038:I
.field private i039:J
.field public static s040:I
.field public static s041:I
.field private i042:J
.field public static s043:I
.field public static s044:I
.field private i045:J
.field public static s046:I
.field public static s047:I
.field private i048:J
.field public static s049:I
.field public static s050:I
.field private i051:J
.field public static s052:I
.field public static s053:I
.field private i054:J
.field public static s055:I
.field public static s056:I
.field private i057:J
.field public static s058:I
.field public static s059:I
.field private i060:J
.field public static s061:I
.field public static s062:I
.field private i063:J
.field public static s064:I
.field public static s065:I
.field private i066:J
.field public static s067:I
.field public static s068:I
.field private i069:J
.field public static s070:I
.field public static s071:I
.field private i072:J
.field public static s073:I
.field public static s074:I
.field private i075:J
.field public static s076:I
.field public static s077:I
.field private i078:J
.field public static s079:I
.field public static s080:I
.field private i081:J
.field public static s082:I
.field public static s083:I
.field private i084:J
.field public static s085:I
.field public static s086:I
.field private i087:J
.field public static s088:I
.field public static s089:I
.field private i090:J
.field public static s091:I
.field public static s092:I
.field private i093:J
.field public static s094:I
.field public static s095:I
.field private i096:J
.field public static s097:I
.field public static s098:I
.field private i099:J
.field public static s100:I
.field public static s101:I
.field private i102:J
.field public static s103:I
.field public static s104:I
.field private i105:J
.field public static s106:I
.field public static s107:I
.field private i108:J
.field public static s109:I
.field public static s110:I
.field private i111:J
.field public static s112:I
.field public static s113:I
.field private i114:J
.field public static s115:I
.field public static s116:I
.field private i117:J
.field public static s118:I
.field public static s119:I
.field private i120:J
.field public static s121:I
.field public static s122:I
.field private i123:J
.field public static s124:I
.field public static s125:I
.field private i126:J
.field public static s127:I
.field public static s128:I
.field private i129:J
.field public static s130:I
.field public static s131:I
.field private i132:J
.field public static s133:I
.field public static s134:I
.field private i135:J
.field public static s136:I
.field public static s137:I
.field private i138:J
.field public static s139:I
.field public static s140:I
.field private i141:J
.field public static s142:I
.field public static s143:I
.field private i144:J
.field public static s145:I
.field public static s146:I
.field private i147:J
.field public static s148:I
.field public static s149:I
