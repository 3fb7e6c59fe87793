.class public La/N;
.super Ljava/lang/Object;
.field public n:La/N;
.field public t:Ljava/lang/Object;
.field public u:Ljava/lang/Object;
